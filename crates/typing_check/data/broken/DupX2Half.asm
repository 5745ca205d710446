# Broken: dup_x2 of an int above an int and a long, whose half it would cut.
class 0021 broken/DupX2Half java/lang/Object
method 0009 wrong ()V 5 0
        lconst_1
        sipush 1
        sipush 2
        dup_x2
        return
end
