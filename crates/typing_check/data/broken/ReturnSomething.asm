# Broken: ireturn in a method that answers nothing.
class 0021 broken/ReturnSomething java/lang/Object
method 0009 wrong ()V 1 0
        sipush 1
        ireturn
end
