# Broken: what two siblings have in common doesn't have the method of one of them.
class 0021 join/Siblings java/lang/Object
method 0009 wrong (ILjoin/L;Ljoin/R;)I 2 3
        aload 1
        iload 0
        ifeq on
        pop
        aload 2
on:     invokevirtual join/L left ()I
        ireturn
end
