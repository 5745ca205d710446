# At fault: the fifth line is no instruction.
class 0021 fault/Line java/lang/Object
# It isn't linked, so no other class can name it.
method 0009 wrong ()V 0 0
        leave
end
