# Broken: the handler's entry is of the caught class, and not a string.
class 0021 broken/HandlerEntry java/lang/Object
method 0009 wrong ()I 1 0
from:   nop
to:     sipush 1
        ireturn
caught: invokevirtual java/lang/String length ()I
        ireturn
        catch from to caught java/lang/Error
end
