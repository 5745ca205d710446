# Broken: iload of a reference.
class 0021 broken/LoadReference java/lang/Object
method 0009 wrong (Ljava/lang/String;)I 1 1
        iload 0
        ireturn
end
