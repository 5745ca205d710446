# Broken: the third and the fourth method, of which the third counts. It has two fields.
class 0021 broken/ThirdOfFour java/lang/Object
field 0001 a I
field 0001 b J
method 0009 first ()V 0 0
        return
end
method 0001 second ()J 2 1
        aload 0
        getfield broken/ThirdOfFour b J
        lreturn
end
method 0001 third ()I 2 1
        aload 0
        getfield broken/ThirdOfFour b J
        ireturn
end
method 0001 fourth ()J 2 1
        aload 0
        getfield broken/ThirdOfFour a I
        lreturn
end
