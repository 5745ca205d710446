# Broken: lastore of an int.
class 0021 broken/StoreIntInLongs java/lang/Object
method 0009 wrong ([J)V 3 1
        aload 0
        sipush 0
        sipush 1
        lastore
        return
end
