# Broken: a switch on a long.
class 0021 broken/SwitchLong java/lang/Object
method 0009 wrong (J)V 2 2
        lload 0
        switch out 1=out
out:    return
end
