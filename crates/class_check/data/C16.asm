class 0021 C16 java/lang/Object
field 0001 a I
field 0001 b I
field 0002 a I
