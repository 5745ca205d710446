class 0021 C15range java/lang/Object
method 0009 a ()V 1 0
L:return
end
method 0009 b ()V 1 0
L: return
catch L L L any
end
