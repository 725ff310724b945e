.model part1
.inputs req c2
.outputs c1
.graph
req+ p1
c1+ p2 p3
req- p4
c1- p5 p6
c2+ p7
c2- p8
p1 c1+
p2 req-
p3 c2+
p4 c1-
p5 req+
p6 c2-
p7 c1-
p8 c1+
.marking { p5 p8 }
.end
