# Broken: the same at an object of a class that stands beside it.
class 0021 q/Sister p/Base
method 0001 wrong (Lq/Sub;)I 2 2
        aload 1
        getfield q/Sub size I
        ireturn
end
