.model part2
.inputs dsr dsw ldtack d
.outputs lds
.graph
dsr+ p1 p2
dsw+ p3
d+/1 p1 p4
lds+ p5
ldtack+ p6
d+ p7
d-/1 p8
dsr- p9
d- p10 p11
dsw- p10 p11
lds- p12
ldtack- p13
p1 lds+
p2 d+
p3 d+/1
p4 d-/1
p5 ldtack+
p6 d+ d-/1
p7 dsr-
p8 dsw-
p9 d-
p10 lds-
p11 dsr+ dsw+
p12 ldtack-
p13 lds+
.marking { p11 p13 }
.end
