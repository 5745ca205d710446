# Broken: an argument is missing.
class 0021 broken/FewArguments java/lang/Object
method 0009 wrong (Ljava/lang/String;)Ljava/lang/String; 2 1
        aload 0
        sipush 1
        invokevirtual java/lang/String substring (II)Ljava/lang/String;
        areturn
end
