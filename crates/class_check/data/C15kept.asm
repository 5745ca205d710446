class 0021 C15kept java/lang/Object
method 0009 a ()J 2 2
lload 0
L: lreturn
M:
catch L M L any
end
