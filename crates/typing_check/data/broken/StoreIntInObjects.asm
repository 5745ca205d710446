# Broken: aastore of an int.
class 0021 broken/StoreIntInObjects java/lang/Object
method 0009 wrong ([Ljava/lang/Object;)V 3 1
        aload 0
        sipush 0
        sipush 1
        aastore
        return
end
