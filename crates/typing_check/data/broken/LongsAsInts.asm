# Broken: iaload of an array of long.
class 0021 broken/LongsAsInts java/lang/Object
method 0009 wrong ([J)I 2 1
        aload 0
        sipush 0
        iaload
        ireturn
end
