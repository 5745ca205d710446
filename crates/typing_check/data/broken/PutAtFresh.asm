# Broken: putfield at a fresh object. It has one field.
class 0021 broken/PutAtFresh java/lang/Object
field 0001 own I
method 0009 wrong ()V 2 0
        new broken/PutAtFresh
        sipush 1
        putfield broken/PutAtFresh own I
        return
end
