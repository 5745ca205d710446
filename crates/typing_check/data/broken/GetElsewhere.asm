# Broken: getfield at an object of another class.
class 0021 broken/GetElsewhere java/lang/Object
method 0009 wrong (Ljava/lang/Object;)I 1 1
        aload 0
        getfield kept/Members own I
        ireturn
end
