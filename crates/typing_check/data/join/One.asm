# An interface.
class 0601 join/One java/lang/Object
method 0401 run ()V 0 0
end
