# Broken: arguments are passed in another order.
class 0021 broken/WrongOrder java/lang/Object
method 0009 wrong (Lkept/Shape;)V 4 1
        aload 0
        lconst_1
        sipush 1
        invokeinterface kept/Shape scale (IJ)V
        return
end
