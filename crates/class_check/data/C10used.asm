class 0021 C10used java/lang/Object
method 0009 a ()V 1 0
getstatic p/B b D
return
end
