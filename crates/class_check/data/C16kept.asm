class 0021 C16kept java/lang/Object
field 0001 a I
field 0002 a J
method 0009 a ()V 0 0
return
end
method 0009 a (I)V 0 1
return
end
