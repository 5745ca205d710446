# Kept: fields and methods of a class. It has six fields.
class 0021 kept/Members java/lang/Object
field 0009 count I
field 0009 total J
field 0009 names [Ljava/lang/String;
field 0001 own I
field 0001 next Lkept/Members;
field 0001 shape Lkept/Shape;

method 0001 <init> ()V 1 1
        aload 0
        invokespecial java/lang/Object <init> ()V
        return
end

method 0009 statics ()V 2 0
        getstatic kept/Members count I
        putstatic kept/Members count I
        getstatic kept/Members total J
        putstatic kept/Members total J
        getstatic kept/Members names [Ljava/lang/String;
        putstatic kept/Members names [Ljava/lang/String;
        aconst_null
        putstatic kept/Members names [Ljava/lang/String;
        getstatic java/lang/System out Ljava/io/PrintStream;
        ldc_w text "said"
        invokevirtual java/io/PrintStream println (Ljava/lang/String;)V
        return
end

method 0001 fields (Lkept/Members;)I 2 2
        aload 0
        aload 1
        getfield kept/Members next Lkept/Members;
        putfield kept/Members next Lkept/Members;
        aload 0
        sipush 1
        putfield kept/Members own I
        aload 1
        getfield kept/Members own I
        ireturn
end

# A value of any class may go where an interface is asked for.
method 0001 shapes (Ljava/lang/String;)J 4 2
        aload 0
        aload 1
        putfield kept/Members shape Lkept/Shape;
        aload 0
        getfield kept/Members shape Lkept/Shape;
        sipush 2
        lconst_1
        invokeinterface kept/Shape scale (IJ)V
        aload 1
        invokeinterface kept/Shape area ()J
        lreturn
end

method 0002 secret (I)I 1 2
        iload 1
        ireturn
end

method 0009 twice (I)I 2 1
        iload 0
        iload 0
        iadd
        ireturn
end

# A private method of the class itself, a static one, and one of another class.
method 0001 calls (Ljava/lang/String;)I 2 2
        aload 0
        sipush 4
        invokespecial kept/Members secret (I)I
        invokestatic kept/Members twice (I)I
        aload 1
        invokevirtual java/lang/String length ()I
        iadd
        ireturn
end

# invokespecial of a parent's method.
method 0001 equals (Ljava/lang/Object;)Z 2 2
        aload 0
        aload 1
        invokespecial java/lang/Object equals (Ljava/lang/Object;)Z
        ireturn
end

# Null is a receiver and an argument of each class.
method 0009 nulls ()I 3 0
        aconst_null
        getfield kept/Members own I
        aconst_null
        aconst_null
        invokevirtual java/lang/String equals (Ljava/lang/Object;)Z
        iadd
        aconst_null
        aconst_null
        putfield kept/Members next Lkept/Members;
        aconst_null
        invokeinterface kept/Shape area ()J
        pop2
        ireturn
end

# A method of the parent is called at an array, which is an object.
method 0009 array ([I)Z 2 1
        aload 0
        aload 0
        invokevirtual java/lang/Object equals (Ljava/lang/Object;)Z
        ireturn
end
