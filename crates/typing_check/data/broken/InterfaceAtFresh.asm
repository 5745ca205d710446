# Broken: a method of an interface is called at a fresh object.
class 0021 broken/InterfaceAtFresh java/lang/Object
method 0009 wrong ()J 2 0
        new kept/Square
        invokeinterface kept/Shape area ()J
        lreturn
end
