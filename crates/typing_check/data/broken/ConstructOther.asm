# Broken: the constructor of the parent is called at a fresh object.
class 0021 broken/ConstructOther java/lang/Object
method 0009 wrong ()V 1 0
        new java/lang/StringBuilder
        invokespecial java/lang/Object <init> ()V
        return
end
