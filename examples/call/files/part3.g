.model part3
.inputs r1 r2
.outputs r
.graph
r1+ p1
r2+ p2
r+ p3
r1- p4
r- p5
r+/1 p6
r2- p7
r-/1 p5
p1 r+
p2 r+/1
p3 r1-
p4 r-
p5 r1+ r2+
p6 r2-
p7 r-/1
.marking { p5 }
.end
