# Kept: so it is in a class below.
class 0021 p/Below p/Base
method 0001 all (Lp/Base;)I 2 2
        aload 1
        aload 1
        getfield p/Base size I
        invokevirtual p/Base grow (I)I
        ireturn
end
