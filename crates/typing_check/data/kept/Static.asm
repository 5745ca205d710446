# Kept: a static initialiser, whose other flags don't count. It has one field.
class 0021 kept/Static java/lang/Object
field 0019 made Ljava/lang/Object;

method 0000 <clinit> ()V 2 0
        new java/lang/Object
        dup
        invokespecial java/lang/Object <init> ()V
        putstatic kept/Static made Ljava/lang/Object;
        return
end
