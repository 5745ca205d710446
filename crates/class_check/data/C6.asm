class 0411 C6 java/lang/Object
