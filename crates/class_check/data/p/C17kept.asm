class 0021 p/C17kept java/lang/Object
