# Broken: a call that answers nothing leaves nothing.
class 0021 broken/NoResult java/lang/Object
method 0009 wrong ()V 1 0
        aconst_null
        invokevirtual java/io/PrintStream println ()V
        pop
        return
end
