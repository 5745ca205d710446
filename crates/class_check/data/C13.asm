class 0021 C13 java/lang/Object
method 0009 a ()V 0 0
return
end
method 0109 b ()V 0 0
end
