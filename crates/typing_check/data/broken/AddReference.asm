# Broken: a reference where an int is needed.
class 0021 broken/AddReference java/lang/Object
method 0009 wrong ()I 2 0
        sipush 1
        aconst_null
        iadd
        ireturn
end
