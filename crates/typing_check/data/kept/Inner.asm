# Kept: constructors before and after they call another one. It has four fields.
class 0021 kept/Inner java/lang/Object
field 1010 this$0 Lkept/Members;
field 0001 size J
field 0001 self Lkept/Inner;
field 0009 any Ljava/lang/Object;

# The class's own fields may be put before the parent's constructor is called.
method 0001 <init> (Lkept/Members;)V 3 2
        aload 0
        aload 1
        putfield kept/Inner this$0 Lkept/Members;
        aload 0
        lconst_1
        putfield kept/Inner size J
        aload 0
        invokespecial java/lang/Object <init> ()V
        return
end

# Another constructor of the class is called.
method 0001 <init> ()V 2 1
        aload 0
        aconst_null
        invokespecial kept/Inner <init> (Lkept/Members;)V
        aload 0
        aload 0
        putfield kept/Inner self Lkept/Inner;
        return
end

# A copy of this is kept in a local and on the stack, and is an object when the constructor was called.
method 0001 <init> (I)V 3 3
        aload 0
        astore 2
        aload 0
        dup
        invokespecial java/lang/Object <init> ()V
        putstatic kept/Inner any Ljava/lang/Object;
        aload 2
        lconst_0
        putfield kept/Inner size J
        return
end

# One path calls the one constructor, and the other path another; before that this is compared.
method 0001 <init> (IJ)V 2 4
        aload 0
        ifnull zero
        iload 1
        ifeq zero
        aload 0
        invokespecial java/lang/Object <init> ()V
        goto both
zero:   aload 0
        invokespecial kept/Inner <init> ()V
both:   aload 0
        getfield kept/Inner size J
        lstore 2
        return
end

# A loop before the call, and one that has no end.
method 0001 <init> (J)V 4 3
more:   lload 1
        lconst_1
        lsub
        lstore 1
        lload 1
        lconst_0
        lcmp
        ifgt more
        lload 1
        lconst_0
        lcmp
        ifeq whole
on:     goto on
whole:  aload 0
        invokespecial java/lang/Object <init> ()V
        return
end

# A constructor that throws needs to call none.
method 0001 <init> (Z)V 2 2
        new java/lang/IllegalStateException
        dup
        invokespecial java/lang/IllegalStateException <init> ()V
        athrow
end

# A handler of what the call throws finds this as it was before, and may throw again.
method 0001 <init> (Ljava/lang/String;)V 1 2
        aload 0
from:   invokespecial java/lang/Object <init> ()V
to:     return
caught: athrow
        catch from to caught any
end

# Its own objects are made in a constructor too.
method 0001 <init> (Lkept/Inner;)V 3 2
        aload 0
        new kept/Inner
        dup
        invokespecial kept/Inner <init> ()V
        putfield kept/Inner self Lkept/Inner;
        aload 0
        invokespecial java/lang/Object <init> ()V
        return
end
