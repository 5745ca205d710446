# Broken: arrays of int and of texts meet at an object, which has no elements.
class 0021 join/Elements java/lang/Object
method 0009 wrong (I[I[Ljava/lang/String;)Ljava/lang/Object; 2 3
        aload 1
        iload 0
        ifeq on
        pop
        aload 2
on:     sipush 0
        aaload
        areturn
end
