class 0021 C7 java/lang/Object
field 0001 a I
method 0009 b.c ()V 0 0
return
end
