# Broken: dup2_x2 of a long above an int and half a long.
class 0021 broken/Dup2X2Half java/lang/Object
method 0009 wrong ()V 7 0
        lconst_1
        sipush 1
        lconst_1
        dup2_x2
        return
end
