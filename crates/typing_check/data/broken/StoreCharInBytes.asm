# Broken: castore into an array of byte.
class 0021 broken/StoreCharInBytes java/lang/Object
method 0009 wrong ([B)V 3 1
        aload 0
        sipush 0
        sipush 1
        castore
        return
end
