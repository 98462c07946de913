# Which crates the program needs, the checksum of their sources, and the records that name it. `top` is the top of the repository.

# The crates of the repository that a crate stands on: those of its line in crates.txt that have a line of their own.
declare -A below=()
read_crates() {
  local name rest word
  local -A all=()
  while IFS=: read -r name rest; do
    name=${name%% *}
    [ -n "$name" ] && all[$name]=$rest
  done < <(sed 's/#.*//' "$top/crates.txt")
  for name in "${!all[@]}"; do
    below[$name]=
    for word in ${all[$name]}; do
      [ -n "${all[$word]+set}" ] && below[$name]+="$word "
    done
  done
}

# The crates that the program needs, itself the last, each after those that it stands on.
declare -A met=()
needed=()
need() {
  local crate
  [ -n "${met[$1]:-}" ] && return
  met[$1]=1
  for crate in ${below[$1]:-}; do need "$crate"; done
  needed+=("$1")
}

# One line `checksum  name` for each source, by name: crates.txt, HANDLES, and src, specs and proofs of each crate that the program needs.
# A link counts as what it leads to; one to a folder has no checksum.
source_lines() (
  cd "$top" || exit 1
  set -o pipefail
  export LC_ALL=C
  folders=()
  for crate in "${needed[@]}"; do
    for part in src specs proofs; do
      [ ! -e "crates/$crate/$part" ] || folders+=("crates/$crate/$part")
    done
  done
  find crates.txt HANDLES "${folders[@]}" ! -type d -print0 | sort -z | xargs -0 sha256sum --
)

# The SHA-256 of these lines. Neither the folder, the user nor any time has a part in it.
sources_sum() (
  read_crates
  need pdn
  lines=$(source_lines) && printf '%s\n' "$lines" | sum_of
)

# The SHA-256 of a file, or of what is read.
sum_of() {
  local sum
  sum=$(sha256sum "$@") && echo "${sum:0:64}"
}

# Sets `sources` to the checksum of the sources as they are. It is kept with the second in which it was begun, and is worked out again
# only where the system has noted a change of a source since (the ctime, which no copy, checkout or `touch` sets back).
sources_now() {
  local kept=$top/crates/pdn/out/sources since count sum now=$EPOCHSECONDS
  local -a folders=("$top"/crates/*/{src,specs,proofs})
  if { read -r since count sum <"$kept"; } 2>/dev/null && [[ $since =~ ^[0-9]+$ && $sum =~ ^[0-9a-f]{64}$ ]] &&
    [ "$count" = "${#folders[@]}" ] && is_unchanged_since "$since"; then
    sources=$sum
    return
  fi
  sources=$(sources_sum) || { sources=; return 1; }
  write_whole "$kept" "$now ${#folders[@]} $sources" || return 0
}

is_unchanged_since() {
  local found
  found=$(find "$top/crates.txt" "$top/HANDLES" "${folders[@]}" -newerct "@$1" -print -quit 2>&1) && [ -z "$found" ]
}

# Writes a text to a file in one piece; where it cannot be written, as in a checkout of somebody else's, it is not.
write_whole() {
  local new=$1.$$
  { mkdir -p "${1%/*}" && printf '%s\n' "$2" >"$new" && mv -f "$new" "$1"; } 2>/dev/null || { rm -f "$new"; return 1; } 2>/dev/null
}

# Sets `value` to that of a name in a record, whose lines are `name value`; 1 where it has none.
value_in() {
  local name
  while read -r name value; do
    [ "$name" != "$2" ] || return 0
  done 2>/dev/null <"$1"
  value=
  return 1
}

# The same, printed.
print_value() {
  local value
  value_in "$1" "$2" && printf '%s\n' "$value"
}

# Whether a file is the program that a record names.
is_named_by() {
  local sum value
  sum=$(sha256sum <"$1") && value_in "$2" program && [ "$value" = "${sum:0:64}" ]
} 2>/dev/null

# Whether a record names the sources as they are.
is_of_these_sources() {
  local value
  sources_now && value_in "$1" sources && [ "$value" = "$sources" ]
}

# Records beside the program that was built here of which sources it is, and what vouches for that.
record_built() {
  local kit
  kit=$(rt version 2>/dev/null) || kit=unknown
  write_whole "$top/crates/pdn/out/built" "$(printf 'sources %s\nprogram %s\nkit %s\nby %s' \
    "$2" "$(sum_of "$top/crates/pdn/out/pdn")" "${kit%%$'\n'*}" "$1")"
}
