# Broken: saload of an array of boolean.
class 0021 broken/BooleansAsShorts java/lang/Object
method 0009 wrong ([Z)I 2 1
        aload 0
        sipush 0
        saload
        ireturn
end
