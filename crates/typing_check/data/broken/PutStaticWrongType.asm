# Broken: putstatic of an int into a field of long. It has two fields.
class 0021 broken/PutStaticWrongType java/lang/Object
field 0009 own I
field 0009 wide J
method 0009 wrong ()V 1 0
        getstatic broken/PutStaticWrongType own I
        putstatic broken/PutStaticWrongType wide J
        return
end
