# Broken: instanceof of a long.
class 0021 broken/TestLong java/lang/Object
method 0009 wrong (J)Z 2 2
        lload 0
        instanceof java/lang/String
        ireturn
end
