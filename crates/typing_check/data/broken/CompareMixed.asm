# Broken: if_acmpne of a reference and an int.
class 0021 broken/CompareMixed java/lang/Object
method 0009 wrong ()V 2 0
        aconst_null
        sipush 0
        if_acmpne out
out:    return
end
