# Broken: the stack isn't equally high on the two paths.
class 0021 join/Heights java/lang/Object
method 0009 wrong (I)V 1 1
        iload 0
        ifeq both
        sipush 1
both:   return
end
