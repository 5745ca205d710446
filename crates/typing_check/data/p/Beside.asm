# Kept: in the same package all of them are free.
class 0021 p/Beside java/lang/Object
method 0009 all (Lp/Base;)I 2 1
        aload 0
        sipush 1
        putfield p/Base size I
        new p/Base
        dup
        invokespecial p/Base <init> ()V
        sipush 2
        invokevirtual p/Base grow (I)I
        ireturn
end
