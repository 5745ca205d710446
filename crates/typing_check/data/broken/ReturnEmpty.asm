# Broken: ireturn where the stack is empty.
class 0021 broken/ReturnEmpty java/lang/Object
method 0009 wrong ()I 1 0
        ireturn
end
