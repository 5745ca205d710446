# Kept: the other sibling.
class 0021 join/R join/Base
method 0001 <init> ()V 1 1
        aload 0
        invokespecial join/Base <init> ()V
        return
end
