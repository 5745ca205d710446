# Broken: iload of the second half of a long.
class 0021 broken/LoadSecondHalf java/lang/Object
method 0009 wrong (J)I 1 2
        iload 1
        ireturn
end
