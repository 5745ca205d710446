# Broken: a long is passed where an int is asked for.
class 0021 broken/WrongArgument java/lang/Object
method 0009 wrong ()I 2 0
        lconst_1
        invokestatic kept/Members twice (I)I
        ireturn
end
