class 0021 C15 java/lang/Object
method 0009 a ()I 1 1
iload 1
ireturn
end
