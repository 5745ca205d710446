# Broken: arrays of int and of long meet at an object, which has no length.
class 0021 join/Numbers java/lang/Object
method 0009 wrong (I[I[J)I 2 3
        aload 1
        iload 0
        ifeq on
        pop
        aload 2
on:     arraylength
        ireturn
end
