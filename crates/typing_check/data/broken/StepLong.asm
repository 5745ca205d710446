# Broken: iinc of a long.
class 0021 broken/StepLong java/lang/Object
method 0009 wrong (J)V 0 2
        iinc 0 1
        return
end
