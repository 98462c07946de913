set_voltage_domain -name CORE -power VDD -ground VSS
define_pdn_grid -name grid -voltage_domains CORE
add_pdn_stripe -grid grid -layer metal1 -width 0.17 -followpins
add_pdn_stripe -grid grid -layer metal2 -width 0.48 -pitch 4 -offset 1
add_pdn_connect -grid grid -layers {metal1 metal2}
pdngen
