# Broken: the same where the store is the first of the range, and the local was unusable before it.
class 0021 broken/HandlerFirst java/lang/Object
method 0009 wrong ()I 1 1
        sipush 1
from:   istore 0
        iload 0
to:     ireturn
caught: pop
        iload 0
        ireturn
        catch from to caught any
end
