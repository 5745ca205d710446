# Broken: a method of a string is called at an object.
class 0021 broken/WrongReceiver java/lang/Object
method 0009 wrong (Ljava/lang/Object;)I 1 1
        aload 0
        invokevirtual java/lang/String length ()I
        ireturn
end
