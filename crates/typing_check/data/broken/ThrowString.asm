# Broken: a string is thrown.
class 0021 broken/ThrowString java/lang/Object
method 0009 wrong (Ljava/lang/String;)V 1 1
        aload 0
        athrow
end
