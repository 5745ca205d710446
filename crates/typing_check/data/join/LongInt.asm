# Broken: a local has a long on one path, and an int in its second half on the other.
class 0021 join/LongInt java/lang/Object
method 0009 wrong (IJ)J 2 3
        iload 0
        ifeq both
        sipush 1
        istore 2
both:   lload 1
        lreturn
end
