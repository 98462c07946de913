# Proves the crates that the program needs side by side, and builds it.
# rt locks the folders of a crate and of all crates below it, so two that share one below would wait for each other. Each crate is proved in a
# tree of its own, of hard links, and what rt makes of it is moved into place. The crate with the longest chain above it is the first.

# What a tree of one crate takes besides its sources, in bytes of sources.
each_check=12000
# How many processor seconds some bytes of sources take. It is a first guess, by the sum of proofs that were timed crate by crate, and each crate
# that is proved here adds to it.
done_bytes=1000000
done_seconds=630
# How long the program's own crate took, once all others were proved.
link_seconds=360

declare -A state=() weight=() chain=() key=() crate_of=() jobs_of=() begun=()

# The key of a crate: of its line, its sources, the keys of the crates below and the toolchain. `out/proved` has that of the last proof.
find_keys() {
  local kit=$1 line path crate one
  local -A lines=()
  while IFS= read -r line; do
    path=${line#* }
    case $path in
      ?crates/*) path=${path#?crates/}; lines[${path%%/*}]+=$line$'\n' ;;
    esac
  done < <(source_lines)
  for crate in "${needed[@]}"; do
    line=$(grep -E "^$crate *(staticlib *)?:" "$top/crates.txt")
    line+=$'\n'$kit$'\n'${lines[$crate]:-}
    for one in ${below[$crate]}; do line+=${key[$one]:-}$'\n'; done
    key[$crate]=$(printf '%s' "$line" | sum_of)
  done
}

is_proved() {
  local found
  [ -d "$top/crates/$1/out/rlib" ] && { read -r found <"$top/crates/$1/out/proved"; } 2>/dev/null && [ "$found" = "${key[$1]}" ]
}

# The weight of each crate, and that of the heaviest chain from it to the program.
weigh() {
  local size path crate one at
  for crate in "${needed[@]}"; do weight[$crate]=$each_check; chain[$crate]=0; done
  while read -r size path; do
    path=${path#*crates/}
    path=${path%%/*}
    [ -z "${weight[$path]:-}" ] || weight[$path]=$((weight[$path] + size))
  done < <(cd "$top" && find crates/*/src crates/*/specs crates/*/proofs -type f -printf '%s %p\n' 2>/dev/null)
  for ((at = ${#needed[@]} - 1; at >= 0; at--)); do
    crate=${needed[at]}
    chain[$crate]=$((chain[$crate] + weight[$crate]))
    for one in ${below[$crate]}; do
      [ "${chain[$one]}" -ge "${chain[$crate]}" ] || chain[$one]=${chain[$crate]}
    done
  done
}

# The memory that is free, in kilobytes, also under the limit of a container.
free_memory() {
  local free limit held
  free=$(awk '/^MemAvailable:/ { print $2 }' /proc/meminfo 2>/dev/null)
  { read -r limit </sys/fs/cgroup/memory.max && read -r held </sys/fs/cgroup/memory.current; } 2>/dev/null
  if [[ ${limit:-} =~ ^[0-9]+$ && ${held:-} =~ ^[0-9]+$ ]]; then
    limit=$(((limit - held) / 1024))
    [ "$limit" -ge "${free:-$limit}" ] || free=$limit
  fi
  echo "${free:-0}"
}

# How many jobs run at once: one a processor, each with 1.6 GB.
jobs_at_once() {
  local processors memory
  processors=$(nproc 2>/dev/null || echo 2)
  memory=$(($(free_memory) / 1600000))
  [ "$memory" -eq 0 ] || [ "$memory" -ge "$processors" ] || processors=$memory
  [ "$processors" -ge 1 ] || processors=1
  echo "$processors"
}

# The crates that wait and may be proved, as all below them are, the one with the longest chain first.
ready_crates() {
  local crate one is_ready
  for crate in "${needed[@]}"; do
    [ "${state[$crate]}" = waiting ] && [ "$crate" != pdn ] || continue
    is_ready=1
    for one in ${below[$crate]}; do [ "${state[$one]}" = proved ] || is_ready=; done
    [ -z "$is_ready" ] || echo "${chain[$crate]} $crate"
  done | LC_ALL=C sort -k1,1nr -k2,2 | cut -d' ' -f2
}

# Lays out the tree of a crate: it and those below it with what was made of them, by hard links, or else copies.
lay_out() {
  local crate tree=$room/$1
  needed=() met=()
  need "$1"
  mkdir -p "$tree/crates" && cp -p "$top/HANDLES" "$tree/" || return 1
  for crate in "${needed[@]}"; do
    cp -rpl "$top/crates/$crate" "$tree/crates/" 2>/dev/null ||
      { rm -rf "$tree/crates/$crate"; cp -rp "$top/crates/$crate" "$tree/crates/"; } || return 1
    grep -E "^$crate *(staticlib *)?:" "$top/crates.txt"
  done >"$tree/crates.txt"
}

start() {
  local crate=$1 jobs=$2
  mkdir -p "$room"
  (
    exec 9<&-
    trap - INT TERM
    lay_out "$crate" && cd "$room/$crate/crates/$crate" && exec rt lib --jobs "$jobs"
  ) >"$room/$crate.log" 2>&1 </dev/null &
  crate_of[$!]=$crate
  jobs_of[$crate]=$jobs
  begun[$crate]=$SECONDS
  state[$crate]=running
  used=$((used + jobs))
}

# Starts what may be proved and has a processor: one job each while as many are ready as there are processors, more where fewer are, four at most.
start_ready() {
  local -a ready
  local jobs
  mapfile -t ready < <(ready_crates)
  while [ "${#ready[@]}" -gt 0 ] && [ "$used" -lt "$slots" ]; do
    jobs=$(((slots - used) / ${#ready[@]}))
    [ "$jobs" -ge 1 ] || jobs=1
    [ "$jobs" -le 4 ] || jobs=4
    start "${ready[0]}" "$jobs"
    ready=("${ready[@]:1}")
  done
}

# Runs a command while no rt works in a crate's folder, by the lock that rt takes itself.
with_folder() {
  local folder=$top/crates/$1
  shift
  command -v flock >/dev/null || { "$@"; return; }
  flock -n "$folder" true || say "another rt works in ${folder#"$top/"}; waiting for it"
  flock "$folder" "$@"
}

# What rt made of a crate takes the place of what was there.
put_in_place() {
  local crate=$1 made=$room/$1/crates/$1/out out=$top/crates/$1/out
  echo "${key[$crate]}" >"$made/proved" &&
    with_folder "$crate" sh -c 'rm -rf "$1.old" && if [ -e "$2" ]; then mv "$2" "$1.old"; fi && mv "$1" "$2"' sh "$made" "$out"
}

# How many minutes are left, by what was proved so far: what is left on all processors, or the longest chain on one.
minutes_left() {
  local crate left=0 longest=0
  for crate in "${needed[@]}"; do
    [ "${state[$crate]}" != proved ] && [ "$crate" != pdn ] || continue
    left=$((left + weight[$crate]))
    [ "${chain[$crate]}" -le "$longest" ] || longest=${chain[$crate]}
  done
  left=$((left / slots))
  [ "$left" -ge "$longest" ] || left=$longest
  echo $(((left * done_seconds / done_bytes + link_seconds + 59) / 60))
}

# Takes the crate that ended: into place where it is proved.
end_one() {
  local crate=${crate_of[$1]} status=$2
  unset "crate_of[$1]"
  used=$((used - jobs_of[$crate]))
  if [ "$status" -eq 0 ] && put_in_place "$crate"; then
    state[$crate]=proved
    proved=$((proved + 1))
    done_bytes=$((done_bytes + weight[$crate]))
    done_seconds=$((done_seconds + (SECONDS - begun[$crate]) * jobs_of[$crate]))
    say "$proved of ${#needed[@]} crates are proved ($crate in $((SECONDS - begun[$crate])) s); about $(minutes_left) minutes are left"
  else
    state[$crate]=failed
    failed+=("$crate")
    say "$crate could not be proved:"
    tail -n 20 "$room/$crate.log" >&2
  fi
  rm -rf "${room:?}/$crate"
}

# Proves all crates below the program. After one that fails no other is started, and those at work are let end.
prove_below() {
  local process status
  while :; do
    [ "${#failed[@]}" -gt 0 ] || start_ready
    [ "${#crate_of[@]}" -gt 0 ] || break
    process=
    wait -n -p process "${!crate_of[@]}"
    status=$?
    [ -z "$process" ] || end_one "$process" "$status"
  done
  [ "${#failed[@]}" -eq 0 ] || return 1
  [ "$proved" -ge $((${#needed[@]} - 1)) ] || { say "crates.txt has a circle"; return 1; }
}

# Ends what is at work when the launcher is told to end.
stop_proving() {
  trap '' INT TERM
  [ "${#crate_of[@]}" -eq 0 ] || kill "${!crate_of[@]}" 2>/dev/null
  wait
  rm -rf "$room"
  say "stopped; what was proved so far is kept"
  exit "$1"
}

# One bin/pdn proves in a folder at a time. Returns 1 where another one did so meanwhile.
take_turn() {
  command -v flock >/dev/null || return 0
  exec 9<"$top/bin"
  flock -n 9 && return 0
  say "another bin/pdn proves in this folder; waiting for it"
  flock 9
  return 1
}

# Where the trees stand: on the file system of the sources, and where rt ci looks for no crates.
room_for_trees() {
  if [ -d "$top/.git" ] && [ -w "$top/.git" ]; then echo "$top/.git/pdn-proving"; else echo "$top/crates/pdn/out/proving"; fi
}

# Run without words, the program that was built says `pdn: Usage` and no more.
link_program() {
  local process
  say "proving and linking the program"
  (exec 9<&-; trap - INT TERM; cd "$top/crates/pdn" && exec rt run) </dev/null >"$room/said" 2>"$room/pdn.log" &
  process=$!
  crate_of[$process]=pdn
  wait "$process"
  unset "crate_of[$process]"
  if [ "$(<"$room/said")" != "pdn: Usage" ]; then
    tail -n 20 "$room/pdn.log" >&2
    return 1
  fi
  touch "$built"
}

prove_and_link() {
  local crate used=0 slots proved=0 before
  local -a failed=()
  read_crates
  need pdn
  find_keys "$(rt version 2>/dev/null)"
  weigh
  for crate in "${needed[@]}"; do
    state[$crate]=waiting
    if is_proved "$crate"; then state[$crate]=proved; proved=$((proved + 1)); fi
  done
  slots=$(jobs_at_once)
  say "$proved of ${#needed[@]} crates are proved; about $(minutes_left) minutes are left, with $slots jobs at once"
  before=$(sources_sum) && prove_below && link_program || return 1
  if [ "$before" != "$(sources_sum)" ]; then
    say "the sources changed while they were proved: run it again"
    return 1
  fi
  record_built "bin/pdn" "$before"
}

build() {
  local room status
  command -v rt >/dev/null || { say "the toolchain's command rt is not on the path"; return 1; }
  if ! take_turn && is_current; then
    exec 9<&-
    return 0
  fi
  room=$(room_for_trees)
  rm -rf "$room"
  mkdir -p "$room" || return 1
  trap 'stop_proving 130' INT
  trap 'stop_proving 143' TERM
  prove_and_link
  status=$?
  trap - INT TERM
  rm -rf "$room"
  exec 9<&-
  return "$status"
}
