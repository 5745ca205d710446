# Kept: arrays are made, read and written. Null is an array of each kind.
class 0021 kept/Arrays java/lang/Object

# boolean, char, byte, short, int, long
method 0009 made (I)[J 2 1
        iload 0
        newarray 4
        pop
        iload 0
        newarray 5
        pop
        iload 0
        newarray 8
        pop
        iload 0
        newarray 9
        pop
        iload 0
        newarray 10
        arraylength
        newarray 11
        areturn
end

method 0009 ints ([I)I 4 1
        aload 0
        sipush 0
        aload 0
        sipush 1
        iaload
        iastore
        aload 0
        arraylength
        ireturn
end

method 0009 longs ([J)J 4 1
        aload 0
        sipush 0
        aload 0
        sipush 1
        laload
        lastore
        aload 0
        sipush 0
        laload
        lreturn
end

method 0009 chars ([C)C 4 1
        aload 0
        sipush 0
        aload 0
        sipush 1
        caload
        castore
        aload 0
        sipush 0
        caload
        ireturn
end

method 0009 shorts ([S)S 4 1
        aload 0
        sipush 0
        aload 0
        sipush 1
        saload
        sastore
        aload 0
        sipush 0
        saload
        ireturn
end

method 0009 bytes ([B)B 4 1
        aload 0
        sipush 0
        aload 0
        sipush 1
        baload
        bastore
        aload 0
        sipush 0
        baload
        ireturn
end

# baload and bastore are for boolean too.
method 0009 booleans ([Z)Z 4 1
        aload 0
        sipush 0
        aload 0
        sipush 1
        baload
        bastore
        aload 0
        sipush 0
        baload
        ireturn
end

method 0009 texts ([Ljava/lang/String;)Ljava/lang/String; 4 1
        aload 0
        sipush 0
        aload 0
        sipush 1
        aaload
        aastore
        aload 0
        sipush 0
        aaload
        areturn
end

# Whether an element fits its array is tested when the store runs, and not here.
method 0009 stored ([Ljava/lang/String;[I)V 3 2
        aload 0
        sipush 0
        aload 1
        aastore
        aload 0
        sipush 1
        aconst_null
        aastore
        return
end

# An array of arrays has arrays as its elements.
method 0009 rows ([[I)I 3 1
        aload 0
        sipush 0
        sipush 3
        newarray 10
        aastore
        aload 0
        sipush 0
        aaload
        sipush 1
        iaload
        ireturn
end

# An element of null is null, or a number.
method 0009 nulls ()J 4 0
        aconst_null
        sipush 0
        aconst_null
        sipush 0
        iaload
        iastore
        aconst_null
        sipush 0
        aaload
        sipush 0
        aaload
        arraylength
        newarray 8
        sipush 0
        aconst_null
        sipush 0
        baload
        bastore
        aconst_null
        sipush 0
        aconst_null
        aastore
        aconst_null
        sipush 0
        laload
        lreturn
end

method 0009 ofTexts (I)[Ljava/lang/String; 1 1
        iload 0
        anewarray java/lang/String
        areturn
end

# anewarray adds a dimension.
method 0009 ofArrays (I)[[J 1 1
        iload 0
        anewarray [J
        areturn
end

# Two of three dimensions are made.
method 0009 cube (II)[[[J 2 2
        iload 0
        iload 1
        multianewarray [[[J 2
        areturn
end

# An array of texts is an array of objects, one of two dimensions is one of one, and each is an object.
method 0009 widened ([Ljava/lang/String;[[I)[Ljava/lang/Object; 2 3
        aload 0
        astore 2
        aload 0
        invokestatic kept/Arrays object (Ljava/lang/Object;)V
        aload 1
        invokestatic kept/Arrays object (Ljava/lang/Object;)V
        aload 0
        invokestatic kept/Arrays objects ([Ljava/lang/Object;)V
        aload 1
        areturn
end

method 0009 object (Ljava/lang/Object;)V 0 1
        return
end

method 0009 objects ([Ljava/lang/Object;)V 0 1
        return
end
