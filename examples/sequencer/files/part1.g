.model part1
.inputs r a1
.outputs r1
.graph
r+ p1
r1+ p2
a1+ p3
r1- p4
a1- p5
r- p6
p1 r1+
p2 a1+
p3 r1-
p4 a1-
p5 r-
p6 r+
.marking { p6 }
.end
