# Broken: lload after a store into the second half of the long.
class 0021 broken/CutLong java/lang/Object
method 0009 wrong (J)J 2 2
        sipush 1
        istore 1
        lload 0
        lreturn
end
