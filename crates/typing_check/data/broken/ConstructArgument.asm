# Broken: a constructor is called with an argument of another type.
class 0021 broken/ConstructArgument java/lang/Object
method 0009 wrong ()V 2 0
        new java/lang/StringBuilder
        sipush 1
        invokespecial java/lang/StringBuilder <init> (Ljava/lang/String;)V
        return
end
