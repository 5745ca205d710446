class 0021 C12kept java/lang/Object
method 0009 b ()V 0 0
return
end
