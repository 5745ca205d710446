# Kept: a public class with protected members. It has two fields.
class 0021 p/Base java/lang/Object
field 0004 size I
field 000c count I

method 0004 <init> ()V 1 1
        aload 0
        invokespecial java/lang/Object <init> ()V
        return
end

method 0004 grow (I)I 2 2
        aload 0
        getfield p/Base size I
        iload 1
        iadd
        ireturn
end

method 000c counted ()I 1 0
        getstatic p/Base count I
        ireturn
end
