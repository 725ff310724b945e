.model part1
.inputs a b
.outputs x
.graph
a+ p1
x+ p2 p3
b+ p4
a- p5
b- p6
x- p7 p8
p1 x+
p2 a-
p3 b-
p4 x+
p5 x-
p6 x-
p7 a+
p8 b+
.marking { p7 p8 }
.end
