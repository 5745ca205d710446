# Broken: dup2_x1 of a long above a long.
class 0021 broken/Dup2X1OverLong java/lang/Object
method 0009 wrong ()V 6 0
        lconst_1
        lconst_1
        dup2_x1
        return
end
