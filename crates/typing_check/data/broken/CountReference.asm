# Broken: anewarray with a count that is a reference.
class 0021 broken/CountReference java/lang/Object
method 0009 wrong ()V 1 0
        aconst_null
        anewarray java/lang/String
        return
end
