# Kept: objects are made, cast, tested and thrown.
class 0021 kept/Objects java/lang/Object

method 0009 made ()Ljava/lang/Object; 2 0
        new java/lang/Object
        dup
        invokespecial java/lang/Object <init> ()V
        areturn
end

method 0009 withArgument ()Ljava/lang/StringBuilder; 3 0
        new java/lang/StringBuilder
        dup
        ldc_w text "a"
        invokespecial java/lang/StringBuilder <init> (Ljava/lang/String;)V
        areturn
end

# All copies of a fresh object are objects when its constructor was called, in locals too.
method 0009 copies ()Ljava/lang/Object; 3 2
        new java/lang/Object
        dup
        dup
        astore 1
        invokespecial java/lang/Object <init> ()V
        aload 1
        invokevirtual java/lang/Object equals (Ljava/lang/Object;)Z
        pop
        aload 1
        areturn
end

# Fresh objects of two places at the same time.
method 0009 nested ()Ljava/lang/StringBuilder; 4 0
        new java/lang/StringBuilder
        dup
        new java/lang/Object
        dup
        invokespecial java/lang/Object <init> ()V
        checkcast java/lang/String
        invokespecial java/lang/StringBuilder <init> (Ljava/lang/String;)V
        areturn
end

# A fresh object may be compared.
method 0009 compared ()V 2 1
        new java/lang/Object
        dup
        astore 0
        aload 0
        if_acmpeq same
        return
same:   aload 0
        ifnull none
        aload 0
        ifnonnull none
none:   return
end

# What a cast leaves is of the class or array that it names.
method 0009 cast (Ljava/lang/Object;)I 3 1
        aload 0
        checkcast [I
        sipush 0
        iaload
        aload 0
        checkcast java/lang/String
        invokevirtual java/lang/String length ()I
        iadd
        aload 0
        checkcast kept/Shape
        pop
        aconst_null
        checkcast java/lang/String
        pop
        ireturn
end

method 0009 tested (Ljava/lang/Object;)Z 2 1
        aload 0
        instanceof java/lang/String
        aload 0
        instanceof [[J
        iand
        aconst_null
        instanceof kept/Shape
        ior
        ireturn
end

method 0009 thrown ()V 1 0
        aconst_null
        athrow
end

method 0009 thrownBelow ()V 2 0
        new java/lang/ArithmeticException
        dup
        invokespecial java/lang/ArithmeticException <init> ()V
        athrow
end

# An object of a class below, and null, are answered as one of the class.
method 0009 below (Ljava/lang/String;)Ljava/lang/Object; 1 1
        aload 0
        ifnull none
        aload 0
        areturn
none:   aconst_null
        areturn
end

# A string is answered where an interface is asked for.
method 0009 shape (Ljava/lang/String;)Lkept/Shape; 1 1
        aload 0
        areturn
end

# In a loop a fresh object of the last time is in a local, where it can't be used any more.
method 0009 loop (I)V 2 2
more:   new java/lang/Object
        astore 1
        iinc 0 -1
        iload 0
        ifge more
        return
end

# The same, and the object is made whole each time.
method 0009 wholeLoop (I)V 2 3
        aconst_null
        astore 1
more:   new java/lang/Object
        dup
        astore 2
        aload 2
        invokespecial java/lang/Object <init> ()V
        astore 1
        iinc 0 -1
        iload 0
        ifge more
        aload 1
        aload 2
        invokevirtual java/lang/Object equals (Ljava/lang/Object;)Z
        pop
        return
end
