# Broken: ireturn in a method that answers a long.
class 0021 broken/ReturnInt java/lang/Object
method 0009 wrong ()J 1 0
        sipush 1
        ireturn
end
