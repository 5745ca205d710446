# Broken: multianewarray with a count that is a long.
class 0021 broken/CountLong java/lang/Object
method 0009 wrong ()V 3 0
        sipush 1
        lconst_1
        multianewarray [[I 2
        return
end
