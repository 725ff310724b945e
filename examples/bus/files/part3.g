.model part3
.inputs dsr dsw d
.outputs dtack
.graph
dsr+ p1 p2
dsw+ p3
d+/1 p2 p4
d+ p5
d-/1 p6
dtack+ p7
dsr- p8
d- p9 p10
dtack+/1 p11
dsw- p9 p10
dtack- p12
p1 d+
p2 d+ d-/1
p3 d+/1
p4 d-/1
p5 dtack+
p6 dtack+/1
p7 dsr-
p8 d-
p9 dtack-
p10 d+ d-/1
p11 dsw-
p12 dsr+ dsw+
.marking { p10 p12 }
.end
