# Broken: an object is passed where a string is asked for.
class 0021 broken/WrongObject java/lang/Object
method 0009 wrong (Ljava/io/PrintStream;Ljava/lang/Object;)V 2 2
        aload 0
        aload 1
        invokevirtual java/io/PrintStream println (Ljava/lang/String;)V
        return
end
