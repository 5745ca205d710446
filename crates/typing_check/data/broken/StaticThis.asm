# Broken: a static method has no receiver.
class 0021 broken/StaticThis java/lang/Object
method 0009 wrong ()Ljava/lang/Object; 1 1
        aload 0
        areturn
end
