class 0021 jk/C17 java/lang/Object
