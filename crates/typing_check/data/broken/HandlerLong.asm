# Broken: a store within the range cuts the long that the handler reads.
class 0021 broken/HandlerLong java/lang/Object
method 0009 wrong (J)J 2 2
from:   sipush 1
        istore 1
to:     lconst_0
        lreturn
caught: pop
        lload 0
        lreturn
        catch from to caught any
end
