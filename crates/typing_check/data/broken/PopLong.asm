# Broken: pop of half a long.
class 0021 broken/PopLong java/lang/Object
method 0009 wrong ()V 2 0
        lconst_1
        pop
        return
end
