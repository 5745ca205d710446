# Broken: a method is called at this before the parent's constructor is.
class 0021 broken/CallEarly java/lang/Object
method 0001 <init> ()V 2 1
        aload 0
        aconst_null
        invokevirtual java/lang/Object equals (Ljava/lang/Object;)Z
        pop
        aload 0
        invokespecial java/lang/Object <init> ()V
        return
end
