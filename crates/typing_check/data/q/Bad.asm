# Broken: a class below in another package calls a protected method at an object of the parent.
class 0021 q/Bad p/Base
method 0001 wrong (Lp/Base;)I 2 2
        aload 1
        sipush 1
        invokevirtual p/Base grow (I)I
        ireturn
end
