puts "a grid"
set width 0.48
add_global_connection -net VDD -pin_pattern VDD -power
set_voltage_domain -name CORE -power VDD -ground VSS
define_pdn_grid -name grid -voltage_domain CORE -starts_with ground -pins metal2
add_pdn_stripe -layer metal1 -followpins
add_pdn_stripe -grid grid -layer metal2 -width 0.2 -followpins
add_pdn_stripe -grid grid -layer metal2 -width $width -pitch 4.0001 -offset 1
foreach layer {metal1} {
  add_pdn_connect -grid grid -layers "$layer metal2"
}
define_pdn_grid -name other -voltage_domains CORE -macro -orient R90
add_pdn_stripe -grid other -layer metal2 -width 0.4 -pitch 2
pdngen -skip_trim
