# Broken: newarray with a count that is a long.
class 0021 broken/CountLongs java/lang/Object
method 0009 wrong ()V 2 0
        lconst_1
        newarray 10
        return
end
