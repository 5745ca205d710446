# Kept: a method without code has nothing to be typed.
class 0421 kept/Abstract java/lang/Object
method 0401 later (I)J 0 0
end
