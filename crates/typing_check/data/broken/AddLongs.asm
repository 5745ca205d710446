# Broken: two longs where two ints are needed.
class 0021 broken/AddLongs java/lang/Object
method 0009 wrong ()I 4 0
        lconst_1
        lconst_1
        iadd
        ireturn
end
