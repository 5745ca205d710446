# An interface, for others to call.
class 0601 kept/Shape java/lang/Object
method 0401 area ()J 0 0
end
method 0401 scale (IJ)V 0 0
end
