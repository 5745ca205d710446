# Broken: a long needs two slots.
class 0021 broken/LongHigh java/lang/Object
method 0009 wrong ()V 1 0
        lconst_1
        return
end
