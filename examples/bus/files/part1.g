.model part1
.inputs dsr dsw ldtack
.outputs d
.graph
dsr+ p1 p2
dsw+ p3
d+/1 p2 p4
ldtack+ p5
d+ p6
d-/1 p7
dsr- p8
d- p9 p10
dsw- p9 p10
ldtack- p11
p1 d+
p2 ldtack+
p3 d+/1
p4 d-/1
p5 d+ d-/1
p6 dsr-
p7 dsw-
p8 d-
p9 dsr+ dsw+
p10 ldtack-
p11 ldtack+
.marking { p9 p11 }
.end
