# Broken: invokespecial of a method of a class that doesn't stand above the own one.
class 0021 broken/SpecialBeside java/lang/Object
method 0009 wrong (Ljava/lang/String;)I 1 1
        aload 0
        invokespecial java/lang/String length ()I
        ireturn
end
