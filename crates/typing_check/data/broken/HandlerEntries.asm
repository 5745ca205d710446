# Broken: the entries of a handler that catches two classes are of one above both.
class 0021 broken/HandlerEntries java/lang/Object
method 0009 wrong ()Ljava/lang/Error; 1 0
from:   nop
to:     aconst_null
        areturn
caught: areturn
        catch from to caught java/lang/Error
        catch from to caught java/lang/Exception
end
