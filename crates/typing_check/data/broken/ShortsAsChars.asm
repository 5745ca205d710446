# Broken: caload of an array of short.
class 0021 broken/ShortsAsChars java/lang/Object
method 0009 wrong ([S)I 2 1
        aload 0
        sipush 0
        caload
        ireturn
end
