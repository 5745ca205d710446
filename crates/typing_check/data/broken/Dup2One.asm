# Broken: dup2 where there is one slot alone.
class 0021 broken/Dup2One java/lang/Object
method 0009 wrong ()V 3 0
        sipush 1
        dup2
        return
end
