.model part2
.inputs a1 a2
.outputs r2
.graph
a1+ p1
a1- p2
r2+ p3
a2+ p4
r2- p5
a2- p6
p1 a1-
p2 r2+
p3 a2+
p4 r2-
p5 a2-
p6 a1+
.marking { p6 }
.end
