# Broken: what the parent's constructor throws is caught, and the constructor returns all the same.
class 0021 broken/CatchSuper java/lang/Object
method 0001 <init> ()V 1 1
        aload 0
from:   invokespecial java/lang/Object <init> ()V
to:     return
caught: pop
        return
        catch from to caught any
end
