# Broken: a method is called at a fresh object.
class 0021 broken/UseFresh java/lang/Object
method 0009 wrong ()I 1 0
        new java/lang/StringBuilder
        invokevirtual java/lang/StringBuilder length ()I
        ireturn
end
