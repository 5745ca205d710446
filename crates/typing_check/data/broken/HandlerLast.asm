# Broken: the same where the store is the last instruction of the range.
class 0021 broken/HandlerLast java/lang/Object
method 0009 wrong (I)I 1 1
from:   aconst_null
        astore 0
to:     sipush 1
        ireturn
caught: pop
        iload 0
        ireturn
        catch from to caught any
end
