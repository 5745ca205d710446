# Broken: a loop calls the constructor of one object again and again.
class 0021 broken/LoopLocal java/lang/Object
method 0009 wrong (I)V 1 2
        new java/lang/Object
        astore 1
more:   aload 1
        invokespecial java/lang/Object <init> ()V
        iinc 0 -1
        iload 0
        ifgt more
        return
end
