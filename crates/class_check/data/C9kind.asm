class 0021 C9kind java/lang/Object
field 0019 a Ljava/lang/String; 5
