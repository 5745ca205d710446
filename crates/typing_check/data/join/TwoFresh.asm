# Broken: fresh objects of two places meet on the stack.
class 0021 join/TwoFresh java/lang/Object
method 0009 wrong (I)V 1 1
        iload 0
        ifeq other
        new java/lang/Object
        goto both
other:  new java/lang/Object
both:   return
end
