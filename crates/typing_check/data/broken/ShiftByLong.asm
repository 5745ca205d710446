# Broken: the distance of a shift is a long.
class 0021 broken/ShiftByLong java/lang/Object
method 0009 wrong ()J 4 0
        lconst_1
        lconst_1
        lshl
        lreturn
end
