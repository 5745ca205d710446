# Broken: a constructor is called at null.
class 0021 broken/ConstructNull java/lang/Object
method 0009 wrong ()V 1 0
        aconst_null
        invokespecial java/lang/Object <init> ()V
        return
end
