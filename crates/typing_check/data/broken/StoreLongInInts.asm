# Broken: iastore of a long.
class 0021 broken/StoreLongInInts java/lang/Object
method 0009 wrong ([I)V 4 1
        aload 0
        sipush 0
        lconst_1
        iastore
        return
end
