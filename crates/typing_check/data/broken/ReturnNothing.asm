# Broken: return in a method that answers an int.
class 0021 broken/ReturnNothing java/lang/Object
method 0009 wrong ()I 0 0
        return
end
