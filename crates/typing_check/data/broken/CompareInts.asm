# Broken: lcmp of two ints.
class 0021 broken/CompareInts java/lang/Object
method 0009 wrong ()I 2 0
        sipush 1
        sipush 2
        lcmp
        ireturn
end
