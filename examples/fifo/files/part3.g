.model part3
.inputs ack l2
.outputs c3
.graph
l2+ p1
c3+ p2 p3
l2- p4
c3- p5 p6
ack+ p7
ack- p8
p1 c3+
p2 l2-
p3 ack+
p4 c3-
p5 l2+
p6 ack-
p7 c3-
p8 c3+
.marking { p5 p8 }
.end
