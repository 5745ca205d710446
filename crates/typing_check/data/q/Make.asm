# Broken: a protected constructor of another package is called at a new object.
class 0021 q/Make p/Base
method 0009 wrong ()V 2 0
        new p/Base
        dup
        invokespecial p/Base <init> ()V
        return
end
