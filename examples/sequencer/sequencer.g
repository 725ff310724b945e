.model sequencer
.inputs r a1 a2 a3
.outputs r1 r2 r3 a
.graph
r+ r1+
r1+ a1+
a1+ r1-
r1- a1-
a1- r2+
r2+ a2+
a2+ r2-
r2- a2-
a2- r3+
r3+ a3+
a3+ r3-
r3- a3-
a3- a+
a+ r-
r- a-
a- r+
.marking { <a-,r+> }
.end
