class 0021 C15handler java/lang/Object
method 0009 a ()V 1 0
L: return
catch L L L any
end
