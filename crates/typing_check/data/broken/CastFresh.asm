# Broken: checkcast of a fresh object.
class 0021 broken/CastFresh java/lang/Object
method 0009 wrong ()V 1 0
        new java/lang/Object
        checkcast java/lang/Object
        return
end
