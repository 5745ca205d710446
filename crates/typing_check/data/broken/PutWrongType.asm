# Broken: putfield of a value of another type. It has one field.
class 0021 broken/PutWrongType java/lang/Object
field 0001 own Ljava/lang/String;
method 0001 wrong ()V 2 1
        aload 0
        aload 0
        putfield broken/PutWrongType own Ljava/lang/String;
        return
end
