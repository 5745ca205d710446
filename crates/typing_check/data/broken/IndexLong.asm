# Broken: the index of an element is a long.
class 0021 broken/IndexLong java/lang/Object
method 0009 wrong ([I)I 3 1
        aload 0
        lconst_1
        iaload
        ireturn
end
