# Broken: a fresh object is an argument.
class 0021 broken/PassFresh java/lang/Object
method 0009 wrong (Ljava/lang/Object;)Z 2 1
        aload 0
        new java/lang/Object
        invokevirtual java/lang/Object equals (Ljava/lang/Object;)Z
        ireturn
end
