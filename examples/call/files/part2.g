.model part2
.inputs r2 a r
.outputs a2
.graph
r2+ p1
r+ p2
a+ p3
r- p4
a- p5
r+/1 p6
a+/1 p7
a2+ p8
r2- p9
r-/1 p10
a-/1 p11
a2- p5
p1 r+/1
p2 a+
p3 r-
p4 a-
p5 r2+ r+
p6 a+/1
p7 a2+
p8 r2-
p9 r-/1
p10 a-/1
p11 a2-
.marking { p5 }
.end
