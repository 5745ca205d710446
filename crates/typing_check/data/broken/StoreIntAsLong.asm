# Broken: lstore of two ints.
class 0021 broken/StoreIntAsLong java/lang/Object
method 0009 wrong ()V 2 2
        sipush 1
        sipush 2
        lstore 0
        return
end
