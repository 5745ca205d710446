# Broken: the stack grows in a loop.
class 0021 join/Loop java/lang/Object
method 0009 wrong ()V 9 0
more:   sipush 1
        goto more
end
