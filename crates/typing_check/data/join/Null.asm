# Broken: an int and null meet on the stack.
class 0021 join/Null java/lang/Object
method 0009 wrong (I)V 1 1
        iload 0
        ifeq none
        sipush 0
        goto both
none:   aconst_null
both:   return
end
