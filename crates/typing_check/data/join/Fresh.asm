# Broken: a fresh object and one that is whole meet on the stack.
class 0021 join/Fresh java/lang/Object
method 0009 wrong (I)V 2 1
        new java/lang/Object
        iload 0
        ifeq both
        dup
        invokespecial java/lang/Object <init> ()V
both:   return
end
