# Broken: a fresh object is left on the stack, and the loop comes back to its new.
class 0021 broken/NewInLoop java/lang/Object
method 0009 wrong (I)V 3 1
more:   new java/lang/Object
        iload 0
        ifgt more
        return
end
