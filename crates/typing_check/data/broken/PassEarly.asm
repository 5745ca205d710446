# Broken: this is an argument before the parent's constructor is called. The second method is at fault.
class 0021 broken/PassEarly java/lang/Object
method 0009 take (Ljava/lang/Object;)V 0 1
        return
end
method 0001 <init> ()V 1 1
        aload 0
        invokestatic broken/PassEarly take (Ljava/lang/Object;)V
        aload 0
        invokespecial java/lang/Object <init> ()V
        return
end
