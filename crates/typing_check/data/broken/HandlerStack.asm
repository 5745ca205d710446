# Broken: there is no room on the stack for what is caught, though nothing in the range throws.
class 0021 broken/HandlerStack java/lang/Object
method 0009 wrong ()V 0 0
from:   nop
to:     return
caught: return
        catch from to caught any
end
