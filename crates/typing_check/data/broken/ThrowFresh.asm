# Broken: a fresh throwable is thrown.
class 0021 broken/ThrowFresh java/lang/Object
method 0009 wrong ()V 1 0
        new java/lang/Error
        athrow
end
