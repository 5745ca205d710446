# Kept: instructions that move what is on the stack. A long takes two slots, and is moved whole.
class 0021 kept/Stack java/lang/Object

# pop takes what has one slot; pop2 takes two of that, or a long.
method 0009 drops (J)V 2 2
        sipush 1
        pop
        aconst_null
        pop
        new java/lang/Object
        pop
        sipush 1
        aconst_null
        pop2
        lload 0
        pop2
        return
end

method 0009 dup ()I 2 0
        sipush 2
        dup
        imul
        ireturn
end

method 0009 dup_x1 ()I 3 0
        sipush 1
        sipush 2
        dup_x1
        iadd
        iadd
        ireturn
end

# One slot below two others.
method 0009 dup_x2 ()I 4 0
        sipush 1
        sipush 2
        sipush 3
        dup_x2
        iadd
        iadd
        iadd
        ireturn
end

# One slot below a long.
method 0009 below (J)I 4 2
        lload 0
        sipush 2
        dup_x2
        pop
        pop2
        ireturn
end

method 0009 dup2 ()I 4 0
        sipush 1
        sipush 2
        dup2
        iadd
        iadd
        iadd
        ireturn
end

method 0009 dup2OfLong (J)J 4 2
        lload 0
        dup2
        ladd
        lreturn
end

method 0009 dup2_x1 ()I 5 0
        sipush 1
        sipush 2
        sipush 3
        dup2_x1
        iadd
        iadd
        iadd
        iadd
        ireturn
end

# A long below an int.
method 0009 dup2_x1OfLong (J)J 5 2
        sipush 1
        lload 0
        dup2_x1
        pop2
        pop
        lreturn
end

method 0009 dup2_x2 ()I 6 0
        sipush 1
        sipush 2
        sipush 3
        sipush 4
        dup2_x2
        iadd
        iadd
        iadd
        iadd
        iadd
        ireturn
end

# A long below a long.
method 0009 longs (JJ)J 6 4
        lload 0
        lload 2
        dup2_x2
        ladd
        ladd
        lreturn
end

# Two ints below a long.
method 0009 intsBelowLong (J)J 6 2
        lload 0
        sipush 1
        sipush 2
        dup2_x2
        iadd
        i2l
        ladd
        pop2
        pop2
        lload 0
        lreturn
end

# An int and a reference are exchanged.
method 0009 swap ()I 2 0
        sipush 3
        aconst_null
        swap
        ireturn
end

# A fresh object is moved as any reference. What is left on the stack at a return is nobody's.
method 0009 fresh ()I 4 0
        sipush 4
        new java/lang/Object
        dup
        swap
        dup_x1
        pop2
        swap
        ireturn
end

# As many slots as max_stack says.
method 0009 full (J)V 3 2
        lload 0
        sipush 1
        return
end
