# Broken: a long is stored where the second half of another one was, and that one is loaded.
class 0021 broken/CutByLong java/lang/Object
method 0009 wrong (J)J 2 3
        lconst_1
        lstore 1
        lload 0
        lreturn
end
