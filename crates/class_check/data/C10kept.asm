class 0021 C10kept java/lang/Object
field 0001 a LF;
method 0009 F (J)J 2 2
lload 0
lreturn
end
