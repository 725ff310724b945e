.model part3
.inputs a2 a3
.outputs r3
.graph
a2+ p1
a2- p2
r3+ p3
a3+ p4
r3- p5
a3- p6
p1 a2-
p2 r3+
p3 a3+
p4 r3-
p5 a3-
p6 a2+
.marking { p6 }
.end
