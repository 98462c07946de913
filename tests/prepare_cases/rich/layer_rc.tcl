set r 1.72e-2
set_layer_rc -layer metal2 -capacitance 1e-1 -resistance 7.04175E-02
set_layer_rc -layer metal1 -resistance 7.04175E-02
set_layer_rc -via via1 -resistance $r
set_wire_rc -layer metal2
