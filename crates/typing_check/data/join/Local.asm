# Broken: a local has an int on one path and a reference on the other, and is read after they meet.
class 0021 join/Local java/lang/Object
method 0009 wrong (I)Ljava/lang/Object; 1 2
        iload 0
        ifeq none
        sipush 1
        istore 1
        goto both
none:   aconst_null
        astore 1
both:   aload 1
        areturn
end
