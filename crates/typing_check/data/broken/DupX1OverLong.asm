# Broken: dup_x1 of an int above a long.
class 0021 broken/DupX1OverLong java/lang/Object
method 0009 wrong ()V 4 0
        lconst_1
        sipush 1
        dup_x1
        return
end
