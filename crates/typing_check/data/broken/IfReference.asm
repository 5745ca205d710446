# Broken: ifeq of a reference.
class 0021 broken/IfReference java/lang/Object
method 0009 wrong (Ljava/lang/String;)V 1 1
        aload 0
        ifeq out
out:    return
end
