# Broken: pop where the stack is empty.
class 0021 broken/PopEmpty java/lang/Object
method 0009 wrong ()V 1 0
        pop
        return
end
