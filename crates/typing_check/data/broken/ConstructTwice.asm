# Broken: the constructor is called a second time at the same object.
class 0021 broken/ConstructTwice java/lang/Object
method 0009 wrong ()V 3 0
        new java/lang/Object
        dup
        dup
        invokespecial java/lang/Object <init> ()V
        invokespecial java/lang/Object <init> ()V
        return
end
