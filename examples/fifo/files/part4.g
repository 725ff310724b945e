.model part4
.inputs c1
.outputs l1
.graph
c1+ p1
c1- p2
l1+ p3
l1- p4
p1 l1+
p2 l1-
p3 c1-
p4 c1+
.marking { p4 }
.end
