.model part4
.inputs r a3
.outputs a
.graph
r+ p1
a3+ p2
a3- p3
a+ p4
r- p5
a- p6
p1 a3+
p2 a3-
p3 a+
p4 r-
p5 a-
p6 r+
.marking { p6 }
.end
