# Kept: a sibling.
class 0021 join/L join/Base
method 0001 <init> ()V 1 1
        aload 0
        invokespecial join/Base <init> ()V
        return
end
method 0001 left ()I 1 1
        sipush 1
        ireturn
end
