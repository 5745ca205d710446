# Broken: a constructor returns and has called no other one.
class 0021 broken/EarlyReturn java/lang/Object
method 0001 <init> ()V 1 1
        return
end
