# Broken: pop2 of an int and half a long.
class 0021 broken/Pop2Half java/lang/Object
method 0009 wrong ()V 3 0
        lconst_1
        sipush 1
        pop2
        return
end
