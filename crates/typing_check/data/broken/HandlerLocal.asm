# Broken: a handler finds a local unusable, since a store within the range changed it.
class 0021 broken/HandlerLocal java/lang/Object
method 0009 wrong (I)I 1 1
from:   aconst_null
        astore 0
        sipush 1
        istore 0
to:     iload 0
        ireturn
caught: pop
        iload 0
        ireturn
        catch from to caught any
end
