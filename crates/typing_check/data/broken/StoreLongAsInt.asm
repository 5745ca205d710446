# Broken: istore of a long.
class 0021 broken/StoreLongAsInt java/lang/Object
method 0009 wrong ()V 2 2
        lconst_1
        istore 0
        return
end
