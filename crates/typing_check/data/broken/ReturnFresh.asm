# Broken: areturn of a fresh object.
class 0021 broken/ReturnFresh java/lang/Object
method 0009 wrong ()Ljava/lang/Object; 1 0
        new java/lang/Object
        areturn
end
