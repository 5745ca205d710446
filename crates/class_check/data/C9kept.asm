class 0421 C9kept java/lang/Object
field 0019 a Ljava/lang/String; "five"
field 0019 b S 70000
method 0401 c ()V 0 0 java/lang/Exception
end
