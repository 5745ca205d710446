# Broken: this is fresh on one path and whole on the other, and the constructor is called where they meet.
class 0021 broken/EarlyLocal java/lang/Object
method 0001 <init> (I)V 1 2
        iload 1
        ifeq whole
        aload 0
        invokespecial java/lang/Object <init> ()V
whole:  aload 0
        invokespecial java/lang/Object <init> ()V
        return
end
