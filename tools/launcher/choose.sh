# Which program is run: the one that was built here where it is of the sources as they are; else the release where its manifest names them;
# else the one that is proved and built now.

built=$top/crates/pdn/out/pdn
manifest=$top/release/MANIFEST
released=$top/release/x86_64-linux/pdn

# Whether the program that was built here is current. Where its record names it, the checksum of the sources decides. A program that has no
# record, as one of `rt run` or one that somebody put there, is current where no source is newer, and that is told once.
is_recorded=
is_current() {
  local record=$top/crates/pdn/out/built
  [ -x "$built" ] || return 1
  is_recorded=1
  if is_named_by "$built" "$record"; then
    is_of_these_sources "$record"
    return
  fi
  is_recorded=
  [ -z "$(find "$top/crates.txt" "$top/HANDLES" "$top"/crates/*/src "$top"/crates/*/specs "$top"/crates/*/proofs \
    -newer "$built" -print -quit 2>/dev/null)" ]
}

# Whether the program of the release is the one that its manifest names, and runs on this machine; else `unfit` says why not.
is_release_whole() {
  unfit=
  if [ ! -e "$released" ]; then unfit="there is no release in this tree"
  elif ! is_named_by "$released" "$manifest"; then
    unfit="release/x86_64-linux/pdn is not the program that release/MANIFEST names, and is not run"
  elif [ "$("$released" </dev/null 2>/dev/null)" != "pdn: Usage" ]; then
    unfit="the release does not run on this machine: it is for Linux on x86-64 with glibc 2.34 or later"
  fi
  [ -z "$unfit" ]
}

# The release as it is told: its version, and the first of its checksum.
release_name() {
  local value
  value_in "$manifest" program
  echo "release $(print_value "$manifest" version) (SHA-256 ${value:0:12}..)"
}

# `bin/pdn --release`: the release, whatever the sources are.
choose_release() {
  local value
  is_release_whole || { say "$unfit"; exit 70; }
  program=$released
  if is_of_these_sources "$manifest"; then
    say "runs the $(release_name), which is of these sources"
  else
    value_in "$manifest" sources
    say "runs the $(release_name), which is of the sources ${value:0:12}.. and not of those in this folder"
  fi
}

# What is installed has no sources: it is the release alone.
choose_installed() {
  is_release_whole || { say "$unfit"; exit 70; }
  program=$released
}

choose_current() {
  program=$built
  if is_current; then
    [ -n "$is_recorded" ] || say "runs crates/pdn/out/pdn, a program without a record of its proof; bin/pdn --prove proves and builds one here"
    return
  fi
  if ! is_release_whole; then
    [ ! -e "$released" ] || say "$unfit"
  elif is_of_these_sources "$manifest"; then
    program=$released
    say "runs the $(release_name), which is of these sources; bin/pdn --prove proves and builds it here"
    return
  else
    say "the sources are not those of the $(release_name), which bin/pdn --release runs all the same; proving them"
  fi
  build || { say "the program could not be built"; exit 70; }
}

# `bin/pdn --prove`: the program is proved and built here, whatever the release says.
choose_proved() {
  local sum
  program=$built
  build || { say "the program could not be built"; exit 70; }
  sum=$(sum_of "$built")
  say "crates/pdn/out/pdn is proved and built here, with SHA-256 $sum"
  if [ ! -e "$manifest" ]; then return; fi
  if [ "$(print_value "$manifest" program)" = "$sum" ]; then
    say "it is the $(release_name), byte for byte"
  elif is_of_these_sources "$manifest"; then
    say "it is NOT the $(release_name), though that is of these sources, made with $(print_value "$manifest" kit)"
  else
    say "the $(release_name) is of other sources"
  fi
}

# Sets `program`, by what was asked for: current, prove or release.
choose_program() {
  if [ ! -e "$top/crates.txt" ]; then
    [ "$1" != prove ] || { say "there are no sources here to prove: --prove is for a checkout"; exit 70; }
    choose_installed
  else
    case $1 in
      prove) choose_proved ;;
      release) choose_release ;;
      *) choose_current ;;
    esac
  fi
}
