# Broken: baload of an array of char.
class 0021 broken/CharsAsBytes java/lang/Object
method 0009 wrong ([C)I 2 1
        aload 0
        sipush 0
        baload
        ireturn
end
