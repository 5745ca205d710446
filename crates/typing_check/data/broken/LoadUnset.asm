# Broken: iload of a local into which nothing was stored.
class 0021 broken/LoadUnset java/lang/Object
method 0009 wrong ()I 1 1
        iload 0
        ireturn
end
