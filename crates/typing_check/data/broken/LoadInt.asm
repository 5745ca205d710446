# Broken: aload of an int.
class 0021 broken/LoadInt java/lang/Object
method 0009 wrong (I)Ljava/lang/Object; 1 1
        aload 0
        areturn
end
