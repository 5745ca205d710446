# Kept: a class of another package that isn't below. Here the member may not be accessed, which C21 says and not the typing.
class 0021 q/Other java/lang/Object
method 0009 seen (Lp/Base;)I 1 1
        aload 0
        getfield p/Base size I
        ireturn
end
