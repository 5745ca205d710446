# Broken: two ints and a long take two slots each, and meet.
class 0021 join/Halves java/lang/Object
method 0009 wrong (I)V 2 1
        iload 0
        ifeq long
        sipush 1
        sipush 2
        goto both
long:   lconst_1
both:   return
end
