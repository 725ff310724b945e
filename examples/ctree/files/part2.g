.model part2
.inputs c d
.outputs y
.graph
c+ p1
y+ p2 p3
d+ p4
c- p5
d- p6
y- p7 p8
p1 y+
p2 c-
p3 d-
p4 y+
p5 y-
p6 y-
p7 c+
p8 d+
.marking { p7 p8 }
.end
