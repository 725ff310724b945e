.model fifo
.inputs req ack
.outputs c1 c2 c3 l1 l2 l3
.graph
req+ c1+
c1+ req-
req- c1-
c1- req+
c1+ l1+
l1+ c2+
c2+ c1-
c1- l1-
l1- c2-
c2- c1+
c2+ l2+
l2+ c3+
c3+ c2-
c2- l2-
l2- c3-
c3- c2+
c3+ l3+
l3+ ack+
ack+ c3-
c3- l3-
l3- ack-
ack- c3+
.marking { <c1-,req+> <c2-,c1+> <c3-,c2+> <ack-,c3+> }
.end
