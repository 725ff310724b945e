.model part2
.inputs c3 l1
.outputs c2
.graph
l1+ p1
c2+ p2 p3
l1- p4
c2- p5 p6
c3+ p7
c3- p8
p1 c2+
p2 l1-
p3 c3+
p4 c2-
p5 l1+
p6 c3-
p7 c2-
p8 c2+
.marking { p5 p8 }
.end
