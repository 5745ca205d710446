# Broken: a field of the parent is put at this before the parent's constructor is called.
class 0021 broken/PutParentField kept/Members
method 0001 <init> ()V 2 1
        aload 0
        sipush 1
        putfield broken/PutParentField own I
        aload 0
        invokespecial kept/Members <init> ()V
        return
end
