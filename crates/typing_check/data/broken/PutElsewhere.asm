# Broken: putfield at an object of another class.
class 0021 broken/PutElsewhere java/lang/Object
method 0009 wrong (Ljava/lang/String;)V 2 1
        aload 0
        sipush 1
        putfield kept/Members own I
        return
end
