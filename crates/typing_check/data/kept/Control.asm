# Kept: jumps, switches, returns and loops.
class 0021 kept/Control java/lang/Object

method 0009 tests (I)I 2 1
        iload 0
        ifeq a
        iload 0
        ifne a
        iload 0
        iflt a
        iload 0
        ifge a
        iload 0
        ifgt a
        iload 0
        ifle a
a:      iload 0
        sipush 1
        if_icmpeq b
        iload 0
        sipush 1
        if_icmpne b
        iload 0
        sipush 1
        if_icmplt b
        iload 0
        sipush 1
        if_icmpge b
        iload 0
        sipush 1
        if_icmpgt b
        iload 0
        sipush 1
        if_icmple b
b:      iload 0
        ireturn
end

method 0009 references (Ljava/lang/String;[I)V 2 2
        aload 0
        aload 1
        if_acmpeq a
        aload 0
        aconst_null
        if_acmpne a
a:      aload 1
        ifnull b
        aload 0
        ifnonnull b
b:      return
end

method 0009 cases (I)J 2 1
        iload 0
        switch other -1=small 100=large
small:  lconst_0
        lreturn
large:  lconst_1
        lreturn
other:  iload 0
        i2l
        lreturn
end

# A switch without cases, and one whose cases lead back.
method 0009 back (I)V 1 1
again:  iinc 0 -1
        iload 0
        switch on 1=again 2=again
on:     iload 0
        switch out
out:    return
end

# Paths meet with the same entries on the stack.
method 0009 meets (I)I 2 1
        iload 0
        ifeq zero
        sipush 1
        goto both
zero:   sipush 2
both:   ireturn
end

# A loop, whose test comes last.
method 0009 loop (I)J 4 3
        lconst_0
        lstore 1
        goto test
body:   lload 1
        iload 0
        i2l
        ladd
        lstore 1
        iinc 0 -1
test:   iload 0
        ifgt body
        lload 1
        lreturn
end

# Control never leaves, and there is no return.
method 0009 forever ()V 0 0
on:     goto on
end

# Control doesn't get to what stands after the goto, which is nonsense. It is good all the same, and may even run off the end.
method 0009 dead ()V 1 2
        goto out
        iadd
        lload 0
        areturn
out:    return
        pop
end

# A local with an int on one path and a reference on the other is not read after the paths meet.
method 0009 unread (I)V 1 2
        iload 0
        ifeq zero
        sipush 1
        istore 1
        goto both
zero:   aconst_null
        astore 1
both:   return
end

# The local is an int at first, and unusable once the loop came back to it.
method 0009 changes (I)V 1 2
        sipush 1
        istore 1
more:   aconst_null
        astore 1
        iinc 0 -1
        iload 0
        ifgt more
        return
end
