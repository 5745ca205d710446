# At fault: the class has no such field. The pool has four entries for the class, three for the method and its code, and then the
# field's name, its type, both together, and the reference, which is the eleventh.
class 0021 fault/Member java/lang/Object
method 0009 wrong ()I 1 0
        getstatic fault/Member a I
        ireturn
end
