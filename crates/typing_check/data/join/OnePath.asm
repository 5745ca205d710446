# Broken: a local has an int on one path alone.
class 0021 join/OnePath java/lang/Object
method 0009 wrong (I)I 1 2
        iload 0
        ifeq both
        sipush 1
        istore 1
both:   iload 1
        ireturn
end
