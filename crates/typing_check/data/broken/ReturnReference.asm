# Broken: areturn in a method that answers an int.
class 0021 broken/ReturnReference java/lang/Object
method 0009 wrong ()I 1 0
        aconst_null
        areturn
end
