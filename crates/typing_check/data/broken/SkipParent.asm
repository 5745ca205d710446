# Broken: a constructor calls that of its parent's parent.
class 0021 broken/SkipParent kept/Members
method 0001 <init> ()V 1 1
        aload 0
        invokespecial java/lang/Object <init> ()V
        return
end
