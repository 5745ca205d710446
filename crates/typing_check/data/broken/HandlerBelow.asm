# Broken: what was on the stack is gone in a handler.
class 0021 broken/HandlerBelow java/lang/Object
method 0009 wrong ()I 2 0
        sipush 1
from:   nop
to:     ireturn
caught: pop
        ireturn
        catch from to caught any
end
