class 0021 C8 java/lang/Object
field 0001 a X
