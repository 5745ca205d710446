# Broken: a constructor calls its parent's twice.
class 0021 broken/SuperTwice java/lang/Object
method 0001 <init> ()V 1 1
        aload 0
        invokespecial java/lang/Object <init> ()V
        aload 0
        invokespecial java/lang/Object <init> ()V
        return
end
