# Broken: control runs off the end.
class 0021 broken/RunsOff java/lang/Object
method 0009 wrong ()V 0 0
        nop
end
