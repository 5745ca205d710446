class 0021 C10 java/lang/Object
field 0001 a J
field 0001 b [F
