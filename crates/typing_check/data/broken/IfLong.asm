# Broken: ifeq of a long.
class 0021 broken/IfLong java/lang/Object
method 0009 wrong (J)V 2 2
        lload 0
        ifeq out
out:    return
end
