# Kept: its class isn't below that of the constructor. Whether it may access that isn't a question of typing.
class 0021 q/Beyond java/lang/Object
method 0009 made ()V 2 0
        new p/Base
        dup
        invokespecial p/Base <init> ()V
        return
end
