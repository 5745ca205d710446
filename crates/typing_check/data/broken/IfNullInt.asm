# Broken: ifnull of an int.
class 0021 broken/IfNullInt java/lang/Object
method 0009 wrong (I)V 1 1
        iload 0
        ifnull out
out:    return
end
