# Broken: ineg of a long.
class 0021 broken/NegateLong java/lang/Object
method 0009 wrong ()V 2 0
        lconst_1
        ineg
        return
end
