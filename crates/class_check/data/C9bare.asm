class 0021 C9bare java/lang/Object
field 0001 a I
method 0001 b ()V 0 0
end
