# Broken: sastore into an array of int.
class 0021 broken/StoreShortInInts java/lang/Object
method 0009 wrong ([I)V 3 1
        aload 0
        sipush 0
        sipush 1
        sastore
        return
end
