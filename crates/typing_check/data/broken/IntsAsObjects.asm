# Broken: aaload of an array of int.
class 0021 broken/IntsAsObjects java/lang/Object
method 0009 wrong ([I)Ljava/lang/Object; 2 1
        aload 0
        sipush 0
        aaload
        areturn
end
