# Broken: aastore of a fresh object.
class 0021 broken/StoreFresh java/lang/Object
method 0009 wrong ([Ljava/lang/Object;)V 3 1
        aload 0
        sipush 0
        new java/lang/Object
        aastore
        return
end
