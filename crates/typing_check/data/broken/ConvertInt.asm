# Broken: l2i of an int.
class 0021 broken/ConvertInt java/lang/Object
method 0009 wrong ()I 1 0
        sipush 1
        l2i
        ireturn
end
