# Broken: if_icmpeq of two references.
class 0021 broken/CompareReferences java/lang/Object
method 0009 wrong ()V 2 0
        aconst_null
        aconst_null
        if_icmpeq out
out:    return
end
