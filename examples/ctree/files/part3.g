.model part3
.inputs x y
.outputs z
.graph
x+ p1
y+ p2
z+ p3 p4
x- p5
y- p6
z- p7 p8
p1 z+
p2 z+
p3 x-
p4 y-
p5 z-
p6 z-
p7 x+
p8 y+
.marking { p7 p8 }
.end
