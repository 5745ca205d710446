# Broken: this is put into a static field before the parent's constructor is called. It has one field.
class 0021 broken/StoreEarly java/lang/Object
field 0009 any Ljava/lang/Object;
method 0001 <init> ()V 1 1
        aload 0
        putstatic broken/StoreEarly any Ljava/lang/Object;
        aload 0
        invokespecial java/lang/Object <init> ()V
        return
end
