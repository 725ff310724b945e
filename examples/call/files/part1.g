.model part1
.inputs r2 a r
.outputs a1
.graph
r2+ p1
r+ p2
a+ p3
a1+ p4
r- p5
a- p6
a1- p7
r+/1 p8
a+/1 p9
r2- p10
r-/1 p11
a-/1 p7
p1 r+/1
p2 a+
p3 a1+
p4 r-
p5 a-
p6 a1-
p7 r2+ r+
p8 a+/1
p9 r2-
p10 r-/1
p11 a-/1
.marking { p7 }
.end
