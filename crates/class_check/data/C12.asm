class 0021 C12 java/lang/Object
field 0001 a I
method 0029 b ()V 0 0
return
end
