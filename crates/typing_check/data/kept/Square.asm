# Kept: a class that implements an interface.
class 0021 kept/Square java/lang/Object kept/Shape

method 0001 <init> ()V 1 1
        aload 0
        invokespecial java/lang/Object <init> ()V
        return
end

method 0001 area ()J 2 1
        lconst_1
        lreturn
end

method 0001 scale (IJ)V 0 4
        return
end
