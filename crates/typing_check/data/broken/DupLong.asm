# Broken: dup of a long.
class 0021 broken/DupLong java/lang/Object
method 0009 wrong ()V 4 0
        lconst_1
        dup
        return
end
