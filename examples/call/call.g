.model call
.inputs r1 r2 a
.outputs a1 a2 r
.graph
idle r1+ r2+
r1+ r+
r+ a+
a+ a1+
a1+ r1-
r1- r-
r- a-
a- a1-
a1- idle
r2+ r+/1
r+/1 a+/1
a+/1 a2+
a2+ r2-
r2- r-/1
r-/1 a-/1
a-/1 a2-
a2- idle
.marking { idle }
.end
