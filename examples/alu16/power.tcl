# The power of each instance, by OpenSTA: LIBERTY, NETLIST and POWER are set in its environment.
read_liberty $::env(LIBERTY)
read_verilog $::env(NETLIST)
link_design alu16
create_clock -name clk -period $::env(PERIOD) clk
set_power_activity -input -activity 0.2 -duty 0.5
report_power > $::env(TOTAL)
report_power -instances [get_cells *] > $::env(POWER)
exit
