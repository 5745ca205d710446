# Broken: iinc of a reference.
class 0021 broken/StepReference java/lang/Object
method 0009 wrong (Ljava/lang/String;)V 0 1
        iinc 0 1
        return
end
