# Broken: a case leads to where a long is needed on the stack.
class 0021 broken/SwitchCase java/lang/Object
method 0009 wrong (IJ)J 3 3
        iload 0
        switch out 1=out 2=in
out:    lload 1
in:     lreturn
end
