# Broken: a branch that isn't taken runs off the end.
class 0021 broken/BranchOff java/lang/Object
method 0009 wrong (I)V 1 1
back:   iload 0
        ifeq back
end
