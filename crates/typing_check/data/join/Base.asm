# Kept: the parent of two siblings.
class 0021 join/Base java/lang/Object
method 0001 <init> ()V 1 1
        aload 0
        invokespecial java/lang/Object <init> ()V
        return
end
method 0001 size ()J 2 1
        lconst_1
        lreturn
end
