# Broken: invokespecial of a parent's method at an object of the parent, and not of the own class.
class 0021 broken/SpecialElsewhere java/lang/Object
method 0001 wrong (Ljava/lang/Object;)Z 2 2
        aload 1
        aload 0
        invokespecial java/lang/Object equals (Ljava/lang/Object;)Z
        ireturn
end
