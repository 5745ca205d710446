class 0421 C9 java/lang/Object
method 0401 a ()V 0 1
return
end
