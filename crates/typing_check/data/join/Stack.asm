# Broken: an int and a text meet on the stack, in the second method.
class 0021 join/Stack java/lang/Object
method 0009 right ()V 0 0
        return
end
method 0009 wrong (I)V 1 1
        iload 0
        ifeq text
        sipush 1
        goto both
text:   ldc_w text "one"
both:   return
end
