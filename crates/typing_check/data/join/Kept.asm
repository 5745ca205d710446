# Kept: what meets on two paths is of the least class above both.
class 0021 join/Kept java/lang/Object

# The parent of the siblings has the method.
method 0009 siblings (I)J 2 1
        iload 0
        ifeq right
        new join/L
        dup
        invokespecial join/L <init> ()V
        goto both
right:  new join/R
        dup
        invokespecial join/R <init> ()V
both:   invokevirtual join/Base size ()J
        lreturn
end

# The same in a local, with null on a third path.
method 0009 local (ILjoin/L;Ljoin/R;)J 2 4
        aconst_null
        astore 3
        iload 0
        iflt all
        aload 1
        astore 3
        iload 0
        ifeq all
        aload 2
        astore 3
all:    aload 3
        invokevirtual join/Base size ()J
        lreturn
end

# A class and its parent meet at the parent.
method 0009 parent (ILjoin/Base;Ljoin/L;)J 2 3
        aload 1
        iload 0
        ifeq on
        pop
        aload 2
on:     invokevirtual join/Base size ()J
        lreturn
end

# Interfaces meet at java/lang/Object, which may go where an interface is asked for.
method 0009 interfaces (ILjoin/One;Ljoin/Two;)V 1 3
        iload 0
        ifeq two
        aload 1
        goto both
two:    aload 2
both:   invokestatic join/Kept take (Ljoin/One;)V
        return
end

method 0009 take (Ljoin/One;)V 1 1
        aload 0
        invokeinterface join/One run ()V
        return
end

# A class and an interface.
method 0009 either (ILjoin/L;Ljoin/Two;)Ljoin/One; 2 3
        iload 0
        ifeq two
        aload 1
        areturn
two:    aload 2
        iload 0
        ifne out
        pop
        aload 1
out:    areturn
end

# Arrays of siblings meet at an array of the parent.
method 0009 arrays (I)J 3 1
        iload 0
        ifeq right
        sipush 2
        anewarray join/L
        goto both
right:  sipush 3
        anewarray join/R
both:   sipush 0
        aaload
        invokevirtual join/Base size ()J
        lreturn
end

# Arrays of interfaces meet at an array of objects.
method 0009 interfaceArrays (I[Ljoin/One;[Ljoin/Two;)V 2 3
        aload 1
        iload 0
        ifeq on
        pop
        aload 2
on:     invokestatic join/Kept takeAll ([Ljoin/One;)V
        return
end

method 0009 takeAll ([Ljoin/One;)V 2 1
        aload 0
        sipush 0
        aaload
        invokestatic join/Kept take (Ljoin/One;)V
        return
end

# Arrays of two dimensions of int, and one of texts, meet at an array of objects.
method 0009 rows (I[[I[Ljava/lang/String;)Ljava/lang/Object; 2 3
        aload 1
        iload 0
        ifeq on
        pop
        aload 2
on:     sipush 0
        aaload
        areturn
end

# Arrays of int and of long meet at an object.
method 0009 numbers (I[I[J)Ljava/lang/Object; 2 3
        aload 1
        iload 0
        ifeq on
        pop
        aload 2
on:     areturn
end

# Arrays of arrays of int and of long meet at an array of objects, which has a length.
method 0009 lengths (I[[I[[J)I 2 3
        aload 1
        iload 0
        ifeq on
        pop
        aload 2
on:     arraylength
        ireturn
end

# Null and null are null, whose element is null.
method 0009 nulls (I)Ljoin/L; 2 1
        aconst_null
        iload 0
        ifeq on
        pop
        aconst_null
on:     sipush 0
        aaload
        areturn
end

# A loop in which a local goes up from class to class.
method 0009 climbs (ILjoin/L;Ljava/lang/String;)Ljava/lang/Object; 1 4
        aload 1
        astore 3
more:   iload 0
        ifeq out
        iload 0
        ifgt text
        aload 1
        astore 3
        iinc 0 1
        goto more
text:   aload 2
        astore 3
        iinc 0 -1
        goto more
out:    aload 3
        areturn
end
