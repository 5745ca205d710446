# Broken: the same with a field that is put.
class 0021 q/Put p/Base
method 0001 wrong (Lp/Base;)V 2 2
        aload 1
        sipush 1
        putfield p/Base size I
        return
end
