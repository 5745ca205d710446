# Broken: a field is got of this before the parent's constructor is called. It has one field.
class 0021 broken/GetEarly java/lang/Object
field 0001 own I
method 0001 <init> ()V 1 1
        aload 0
        getfield broken/GetEarly own I
        pop
        aload 0
        invokespecial java/lang/Object <init> ()V
        return
end
