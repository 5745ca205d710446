# At fault: no class is known by the name of the parent. The pool begins with the class's name, its entry, and the same of the parent.
class 0021 fault/Orphan fault/Line
