.model part5
.inputs c2
.outputs l2
.graph
c2+ p1
c2- p2
l2+ p3
l2- p4
p1 l2+
p2 l2-
p3 c2-
p4 c2+
.marking { p4 }
.end
