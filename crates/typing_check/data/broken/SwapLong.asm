# Broken: swap with a long.
class 0021 broken/SwapLong java/lang/Object
method 0009 wrong ()V 3 0
        lconst_1
        sipush 1
        swap
        return
end
