class 0011 C6kept java/lang/Object
field 0001 a I
field 0040 b I
