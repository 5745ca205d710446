# Broken: astore of an int.
class 0021 broken/StoreIntAsReference java/lang/Object
method 0009 wrong ()V 1 1
        sipush 1
        astore 0
        return
end
