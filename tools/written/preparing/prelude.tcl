# Runs PDN scripts in a safe interpreter, in which they can neither run programs nor open, write or remove files; the PDN commands
# print themselves, with their file, their line and their words.
#
# usage: tclsh prelude.tcl COUNT NAME VALUE .. SCRIPT ..       (COUNT pairs, which the scripts see as $::env(NAME))
#
# Each line printed is a record: its words are written as hexadecimal UTF-8, so that no word can end a line.

fconfigure stdout -encoding utf-8 -translation lf

proc record {args} {
  set words {}
  foreach word $args { lappend words "x[binary encode hex [encoding convertto utf-8 $word]]" }
  puts [join $words " "]
}

# `source` looks beside the script that names the file where it is not found from the folder of the call
proc read_script {child name} {
  set beside [file join [file dirname [$child eval {info script}]] $name]
  if {![file exists $name] && [file exists $beside]} { set name $beside }
  record file [file normalize $name] $name
  if {[catch {interp invokehidden $child -global source -encoding utf-8 $name} result options]} {
    return -code error -errorinfo [dict get $options -errorinfo] $result
  }
  return $result
}

# of `file` only what computes with names or asks whether a file is there
proc plain_file {sub args} {
  if {$sub ni {join dirname tail rootname extension split exists isfile isdirectory normalize}} {
    error "file $sub is not to be had in a script that is prepared"
  }
  return [file $sub {*}$args]
}

interp create -safe script
interp alias script _record {} record
interp alias script source {} read_script script
interp alias script file {} plain_file
interp limit script command -value 2000000

script eval {
  # the file and the line of the command that is being run
  proc _place {} {
    for {set level [expr {[info frame] - 2}]} {$level > 0} {incr level -1} {
      set frame [info frame $level]
      if {[dict exists $frame file] && [dict exists $frame line]} { return [list [dict get $frame file] [dict get $frame line]] }
    }
    return [list "" 0]
  }
  foreach name {set_voltage_domain define_pdn_grid add_pdn_stripe add_pdn_ring add_pdn_connect pdngen} {
    proc $name args "_record command {*}\[_place\] $name {*}\$args"
  }
  foreach name {add_global_connection global_connect clear_global_connect report_global_connect puts set_wire_rc set_layer_rc
                utl::report utl::info utl::warn utl::debug} {
    namespace eval [namespace qualifiers ::$name] {}
    proc ::$name args "_record idle {*}\[_place\] $name {*}\$args"
  }
  proc log_cmd args { uplevel 1 $args }
  proc unknown args { _record unknown {*}[_place] {*}$args }
}

set count [lindex $argv 0]
foreach {name value} [lrange $argv 1 [expr {2 * $count}]] { script eval [list set ::env($name) $value] }
foreach name [lrange $argv [expr {2 * $count + 1}] end] {
  if {[catch {read_script script $name} why options]} {
    record error $why [dict get $options -errorinfo]
    exit 1
  }
}
record end
