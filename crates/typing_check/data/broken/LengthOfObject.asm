# Broken: arraylength of an object.
class 0021 broken/LengthOfObject java/lang/Object
method 0009 wrong (Ljava/lang/Object;)I 1 1
        aload 0
        arraylength
        ireturn
end
