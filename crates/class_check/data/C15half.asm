class 0021 C15half java/lang/Object
method 0009 a ()J 2 2
lload 1
lreturn
end
