class 0021 C6member java/lang/Object
field 0001 a I
field 0003 b I
