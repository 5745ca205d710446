# Broken: i2b of a long.
class 0021 broken/NarrowLong java/lang/Object
method 0009 wrong ()V 2 0
        lconst_1
        i2b
        return
end
