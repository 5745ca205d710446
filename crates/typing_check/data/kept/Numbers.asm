# Kept: constants, locals and arithmetic of int and long.
class 0021 kept/Numbers java/lang/Object

# Constants of int, and what is done with ints.
method 0009 ints ()I 2 0
        sipush 5
        sipush -3
        iadd
        ldc_w int 100000
        isub
        sipush 2
        imul
        sipush 7
        idiv
        sipush 6
        irem
        ineg
        sipush 3
        ishl
        sipush 1
        ishr
        sipush 1
        iushr
        sipush 255
        iand
        sipush 8
        ior
        sipush 9
        ixor
        i2b
        i2c
        i2s
        ireturn
end

# Constants of long, and what is done with longs. The distance of a shift is an int.
method 0009 longs (J)J 4 2
        lload 0
        lconst_1
        ladd
        ldc2_w long 10000000000
        lsub
        lload 0
        lmul
        lconst_1
        ldiv
        lconst_1
        lrem
        lneg
        sipush 3
        lshl
        sipush 1
        lshr
        sipush 1
        lushr
        lconst_0
        land
        lconst_1
        lor
        lconst_1
        lxor
        lreturn
end

# An int becomes a long, two longs are compared, and a long becomes an int.
method 0009 both (IJ)I 4 3
        nop
        iload 0
        i2l
        lload 1
        lcmp
        lload 1
        l2i
        iadd
        ireturn
end

# Boolean, byte, char and short are int, in locals and on the stack.
method 0009 locals (ZBCS)J 4 7
        iload 0
        iload 1
        iadd
        istore 4
        iinc 4 -1
        iinc 0 300
        iload 2
        iload 3
        isub
        i2l
        lstore 5
        lload 5
        iload 4
        i2l
        ladd
        lreturn
end

# A boolean is answered as an int.
method 0009 flag ()Z 1 0
        sipush 7
        ireturn
end

# A text is a java/lang/String.
method 0009 text ()Ljava/lang/String; 1 0
        ldc_w text "seven"
        areturn
end

# A local has values of other types one after another. A long that is cut is no longer used.
method 0009 again (J)I 2 2
        lload 0
        l2i
        istore 1
        iload 1
        istore 0
        aconst_null
        astore 1
        iload 0
        ireturn
end
