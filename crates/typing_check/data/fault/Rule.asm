# At fault: the descriptor of the second method is none, by C8. It has one field.
class 0021 fault/Rule java/lang/Object
field 0001 a I
method 0009 right ()V 0 0
        return
end
method 0009 wrong (V)V 0 0
        return
end
