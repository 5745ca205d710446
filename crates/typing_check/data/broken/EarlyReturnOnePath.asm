# Broken: a constructor calls another one on one path alone.
class 0021 broken/EarlyReturnOnePath java/lang/Object
method 0001 <init> (I)V 1 2
        iload 1
        ifeq out
        aload 0
        invokespecial java/lang/Object <init> ()V
out:    return
end
