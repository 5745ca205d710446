# Broken: arrays of byte and of boolean are read alike, but meet at an object.
class 0021 join/Bytes java/lang/Object
method 0009 wrong (I[B[Z)I 2 3
        aload 1
        iload 0
        ifeq on
        pop
        aload 2
on:     sipush 0
        baload
        ireturn
end
