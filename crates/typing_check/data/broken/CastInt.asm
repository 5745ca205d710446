# Broken: checkcast of an int.
class 0021 broken/CastInt java/lang/Object
method 0009 wrong (I)V 1 1
        iload 0
        checkcast java/lang/String
        return
end
