# Broken: dup2 of an int and half a long.
class 0021 broken/Dup2Half java/lang/Object
method 0009 wrong ()V 5 0
        lconst_1
        sipush 1
        dup2
        return
end
