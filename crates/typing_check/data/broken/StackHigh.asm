# Broken: more slots on the stack than max_stack says.
class 0021 broken/StackHigh java/lang/Object
method 0009 wrong ()V 1 0
        sipush 1
        sipush 1
        return
end
