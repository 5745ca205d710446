# At fault: the class of the field isn't known, since the text of that class is at fault. Its name is the sixth entry of the pool.
class 0021 fault/Stranger java/lang/Object
field 0001 a Lfault/Orphan;
