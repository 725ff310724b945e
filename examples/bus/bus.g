.model bus
.inputs dsr dsw ldtack
.outputs d lds dtack
.graph
idle dsr+ dsw+
dsr+ device reading
dsw+ d+/1
d+/1 device writing
device lds+
free lds+
lds+ ldtack+
ldtack+ answered
answered d+ d-/1
reading d+
writing d-/1
d+ dtack+
dtack+ dsr-
dsr- d-
d- end_bus end_device
d-/1 dtack+/1
dtack+/1 dsw-
dsw- end_bus end_device
end_bus dtack-
dtack- idle
end_device lds-
lds- ldtack-
ldtack- free
.marking { idle free }
.end
