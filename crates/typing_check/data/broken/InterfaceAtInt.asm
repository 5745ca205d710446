# Broken: a method of an interface is called at an int.
class 0021 broken/InterfaceAtInt java/lang/Object
method 0009 wrong ()J 2 0
        sipush 1
        invokeinterface kept/Shape area ()J
        lreturn
end
