.model ctree
.inputs a b c d
.outputs x y z
.graph
a+ x+
b+ x+
c+ y+
d+ y+
x+ z+
y+ z+
z+ a- b- c- d-
a- x-
b- x-
c- y-
d- y-
x- z-
y- z-
z- a+ b+ c+ d+
.marking { <z-,a+> <z-,b+> <z-,c+> <z-,d+> }
.end
