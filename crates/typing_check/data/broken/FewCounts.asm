# Broken: multianewarray of two dimensions with one count.
class 0021 broken/FewCounts java/lang/Object
method 0009 wrong ()V 2 0
        sipush 1
        multianewarray [[I 2
        return
end
