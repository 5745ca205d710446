# Broken: instanceof of a fresh object.
class 0021 broken/TestFresh java/lang/Object
method 0009 wrong ()Z 1 0
        new java/lang/Object
        instanceof java/lang/Object
        ireturn
end
