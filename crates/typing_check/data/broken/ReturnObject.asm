# Broken: areturn of an object of another class.
class 0021 broken/ReturnObject java/lang/Object
method 0009 wrong (Ljava/lang/Object;)Ljava/lang/String; 1 1
        aload 0
        areturn
end
