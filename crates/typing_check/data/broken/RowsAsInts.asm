# Broken: iaload of an array of arrays.
class 0021 broken/RowsAsInts java/lang/Object
method 0009 wrong ([[I)I 2 1
        aload 0
        sipush 0
        iaload
        ireturn
end
