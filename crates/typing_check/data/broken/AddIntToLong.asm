# Broken: an int where a long is needed.
class 0021 broken/AddIntToLong java/lang/Object
method 0009 wrong ()J 4 0
        lconst_1
        sipush 1
        ladd
        lreturn
end
