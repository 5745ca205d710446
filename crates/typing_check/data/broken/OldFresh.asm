# Broken: a local has null at first, and the fresh object of the last time when the loop comes back.
class 0021 broken/OldFresh java/lang/Object
method 0009 wrong ()V 1 1
        aconst_null
        astore 0
more:   aload 0
        pop
        new java/lang/Object
        astore 0
        goto more
end
