# Kept: a class below in another package takes protected members at its own objects and those of classes below it. It has one field.
class 0021 q/Sub p/Base
field 0001 other Lq/Sub;

# A protected constructor is called at this.
method 0001 <init> ()V 1 1
        aload 0
        invokespecial p/Base <init> ()V
        return
end

method 0001 own ()I 3 1
        aload 0
        aload 0
        getfield p/Base size I
        putfield p/Base size I
        aload 0
        sipush 1
        invokevirtual p/Base grow (I)I
        aload 0
        getfield q/Sub other Lq/Sub;
        sipush 2
        invokevirtual q/Sub grow (I)I
        iadd
        ireturn
end

# invokespecial of a parent's method.
method 0004 grow (I)I 2 2
        aload 0
        iload 1
        invokespecial p/Base grow (I)I
        ireturn
end

# A static member has no receiver.
method 0009 statics ()I 2 0
        getstatic p/Base count I
        invokestatic p/Base counted ()I
        iadd
        ireturn
end

# Null is an object of the own class.
method 0009 nulls ()I 2 0
        aconst_null
        sipush 1
        invokevirtual p/Base grow (I)I
        ireturn
end
