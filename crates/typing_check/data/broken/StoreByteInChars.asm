# Broken: bastore into an array of char.
class 0021 broken/StoreByteInChars java/lang/Object
method 0009 wrong ([C)V 3 1
        aload 0
        sipush 0
        sipush 1
        bastore
        return
end
