# Broken: what a call answers is an int, and is used as a reference.
class 0021 broken/WrongResult java/lang/Object
method 0009 wrong (Ljava/lang/String;)Ljava/lang/Object; 1 1
        aload 0
        invokevirtual java/lang/String length ()I
        areturn
end
