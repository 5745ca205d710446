# Kept: handlers.
class 0021 kept/Catches java/lang/Object

# A handler begins with what it catches alone on the stack, whatever was there.
method 0009 alone (I)I 3 1
        sipush 1
from:   sipush 2
        iload 0
        idiv
to:     iadd
        ireturn
caught: invokevirtual java/lang/ArithmeticException getMessage ()Ljava/lang/String;
        invokevirtual java/lang/String length ()I
        ireturn
        catch from to caught java/lang/ArithmeticException
end

# What any catches is a java/lang/Throwable.
method 0009 all ()V 1 0
from:   nop
to:     return
caught: athrow
        catch from to caught any
end

# A local keeps its type in a store, so the handler may read it.
method 0009 kept (I)I 1 2
        sipush 0
        istore 1
from:   sipush 1
        istore 1
        iinc 1 1
        iload 0
        istore 1
to:     iload 1
        ireturn
caught: pop
        iload 1
        ireturn
        catch from to caught any
end

# A store before the range changes what the handler finds.
method 0009 before (Ljava/lang/Object;)I 1 1
        sipush 1
        istore 0
from:   nop
to:     iload 0
        ireturn
caught: pop
        iload 0
        ireturn
        catch from to caught any
end

# A store directly after the range doesn't.
method 0009 after (I)I 1 1
from:   nop
to:     aconst_null
        astore 0
        sipush 1
        ireturn
caught: pop
        iload 0
        ireturn
        catch from to caught any
end

# Entries overlap, one lies within another, and two have one handler, which finds a class above both.
method 0009 overlap (I)I 2 2
one:    iload 0
        istore 1
two:    iload 0
        iload 1
three:  idiv
four:   istore 1
five:   iload 1
        ireturn
first:  invokevirtual java/lang/Throwable getMessage ()Ljava/lang/String;
        pop
        iload 0
        ireturn
second: pop
        iload 0
        ireturn
        catch one four first java/lang/ArithmeticException
        catch two five first java/lang/NullPointerException
        catch three four second any
        catch one five second java/lang/Error
end

# A handler is covered by its own entry, and by that of another.
method 0009 own ()V 1 0
from:   nop
        return
caught: athrow
second: pop
        return
to:     return
        catch from to caught java/lang/Exception
        catch caught second second java/lang/Throwable
end

# An entry that covers only what control doesn't get to, and whose handler would find nothing good.
method 0009 unreached (I)V 0 1
        goto out
from:   nop
to:     nop
caught: iadd
out:    return
        catch from to caught any
end

# The end of an entry is the end of the code.
method 0009 last ()V 1 0
from:   return
caught: pop
        goto from
to:
        catch from to caught any
end
