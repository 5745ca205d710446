class 0021 Other java/lang/Object
