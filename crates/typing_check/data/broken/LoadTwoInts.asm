# Broken: lload of two ints.
class 0021 broken/LoadTwoInts java/lang/Object
method 0009 wrong (II)J 2 2
        lload 0
        lreturn
end
