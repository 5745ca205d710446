# Broken: a copy has no room.
class 0021 broken/DupHigh java/lang/Object
method 0009 wrong ()V 2 0
        sipush 1
        sipush 2
        dup_x1
        return
end
