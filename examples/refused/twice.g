.inputs a
.outputs x
.graph
a+ x+
a+ x+/0
.end
