.model part6
.inputs c3
.outputs l3
.graph
c3+ p1
c3- p2
l3+ p3
l3- p4
p1 l3+
p2 l3-
p3 c3-
p4 c3+
.marking { p4 }
.end
