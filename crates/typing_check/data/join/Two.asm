# Another interface.
class 0601 join/Two java/lang/Object
