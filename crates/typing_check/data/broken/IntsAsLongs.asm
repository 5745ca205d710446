# Broken: laload of an array of int.
class 0021 broken/IntsAsLongs java/lang/Object
method 0009 wrong ([I)J 2 1
        aload 0
        sipush 0
        laload
        lreturn
end
