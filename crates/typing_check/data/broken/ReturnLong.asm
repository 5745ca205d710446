# Broken: lreturn in a method that answers an int.
class 0021 broken/ReturnLong java/lang/Object
method 0009 wrong ()I 2 0
        lconst_1
        lreturn
end
