# Broken: the first local of a method that isn't static is its receiver.
class 0021 broken/ThisAsInt java/lang/Object
method 0001 wrong (I)I 1 2
        iload 0
        ireturn
end
