# What stands around a run of the program: nothing is overwritten by mistake, long work shows itself, and an answer is explained.
# Standard output and status are the program's. Words of the launcher's own are --quiet, --force and --explain.

# What a function finds it leaves in REPLY, or in the array `options`: a process for each answer would take longer than the program.

# The options of the command whose file is read, or is written: share/help/files.txt has a line `command option use` for each.
options_that_are() {
  local use=$1 command=$2 named option how
  options=()
  while read -r named option how; do
    if [ "$named" = "$command" ] && [ "$how" = "$use" ]; then options+=("$option"); fi
  done <"$top/share/help/files.txt"
}

# The value that the words give an option, the first where they give several; 1 where they give none.
value_of() {
  local wanted=$1 word
  shift
  while [ "$#" -gt 0 ]; do
    word=$1
    shift
    case $word in
      "$wanted") [ "$#" -gt 0 ] || return 1; REPLY=$1; return 0 ;;
      "$wanted"=*) REPLY=${word#*=}; return 0 ;;
      --quiet|--force|--explain|--*=*) ;;
      --*) if [ "$#" -gt 0 ] && [ "${1:0:1}" != - ]; then shift; fi ;;
    esac
  done
  return 1
}

# The file that a name leads to, where it is a link to one that is not there yet. A name may end with a line feed, which `$(..)` would drop.
behind_links() {
  REPLY=$1
  if [ -L "$1" ]; then REPLY=$(readlink -m -- "$1" 2>/dev/null && printf x) && REPLY=${REPLY%??} || REPLY=$1; fi
}

folder_of() {
  case $1 in */*) REPLY=${1%/*}/ ;; *) REPLY=. ;; esac
}

# Whether two names are one file, there or still to be made.
is_one_file() {
  local first second folder
  [ "$1" -ef "$2" ] && return 0
  if [ -e "$1" ] || [ -e "$2" ]; then return 1; fi
  behind_links "$1" && first=$REPLY
  behind_links "$2" && second=$REPLY
  [ "${first##*/}" = "${second##*/}" ] || return 1
  folder_of "$first" && folder=$REPLY
  folder_of "$second"
  [ "$folder" -ef "$REPLY" ]
}

# What an output is that is no regular file, in words; 1 where it is one or is not there.
is_unfit() {
  if [ -d "$1" ]; then REPLY="a folder"
  elif [ -p "$1" ]; then REPLY="a pipe"
  elif [ -b "$1" ] || [ -c "$1" ]; then REPLY="a device"
  elif [ -S "$1" ]; then REPLY="a socket"
  else return 1; fi
}

refuse_output() {
  echo "pdn: $1; nothing was run" >&2
  echo "pdn: name another file, or say --force to let it through" >&2
  exit 2
}

# The values that the words give the options with this use, into `given`, and these options into `options`.
take_given() {
  local use=$1 option
  local -a named=()
  shift
  options_that_are "$use" "$1"
  for option in "${options[@]}"; do
    if value_of "$option" "${@:2}" && [ -n "$REPLY" ]; then given[$option]=$REPLY && named+=("$option"); fi
  done
  options=("${named[@]}")
}

# Ends with 2 where an output is an input, another output or standard output under another name, or no regular file.
guard_outputs() {
  local word option other value
  local -a options=() inputs=() outputs=()
  local -A given=()
  [ "$#" -gt 0 ] && [ -r "$top/share/help/files.txt" ] || return 0
  for word; do if [ "$word" = --force ]; then return 0; fi; done
  take_given read "$@" && inputs=("${options[@]}")
  take_given written "$@" && outputs=("${options[@]}")
  for option in "${outputs[@]}"; do
    value=${given[$option]}
    is_unfit "$value" && refuse_output "$option $value is $REPLY and no regular file"
    [ "$value" -ef /dev/stdout ] && refuse_output "$option $value is standard output, which takes the line of the answer"
    for other in "${inputs[@]}"; do
      is_one_file "$value" "${given[$other]}" && refuse_output "$option $value is the file of $other ${given[$other]}, which would be overwritten"
    done
  done
  guard_apart
}

# Two outputs that are one file by two names. Those of one name are the program's to refuse.
guard_apart() {
  local at next one two
  for ((at = 0; at < ${#outputs[@]}; at++)); do
    for ((next = at + 1; next < ${#outputs[@]}; next++)); do
      one=${given[${outputs[at]}]} two=${given[${outputs[next]}]}
      if [ "$one" != "$two" ] && is_one_file "$one" "$two"; then refuse_output "${outputs[at]} $one and ${outputs[next]} $two are one file"; fi
    done
  done
}

# How many bytes the inputs of the words have.
bytes_to_read() {
  local option size
  local -a options=()
  local total=0
  options_that_are read "$1"
  for option in "${options[@]}"; do
    value_of "$option" "${@:2}" && size=$(stat -L -c %s -- "$REPLY" 2>/dev/null) && total=$((total + size))
  done
  REPLY=$total
}

# What the process is at, as far as the system tells it: it reads until it has read its inputs, and writes once an output is open.
stage_of() {
  local process=$1 wanted=$2 command=$3 key number file value
  shift 3
  while read -r key number; do [ "$key" = rchar: ] && break; done 2>/dev/null <"/proc/$process/io"
  for file in "$@"; do
    for value in "/proc/$process/fd/"*; do [ "$value" -ef "$file" ] && { echo "writing $file"; return; }; done
  done
  if [ "${number:-0}" -lt "$wanted" ]; then echo "reading"; return; fi
  case $command in
    build) echo "drawing, extracting and certifying" ;;
    signoff) echo "extracting and certifying" ;;
    solve|step) echo "certifying" ;;
    *) echo "at work" ;;
  esac
}

# Shows stage, seconds since the launcher began and memory on one line of standard error until the process has ended.
show_progress() {
  local process=$1 option key memory wanted
  local -a options=() written=()
  shift
  bytes_to_read "$@" && wanted=$REPLY
  options_that_are written "$1"
  for option in "${options[@]}"; do value_of "$option" "${@:2}" && written+=("$REPLY"); done
  while [ -d "/proc/$process" ]; do
    memory=0
    while read -r key memory _; do [ "$key" = VmRSS: ] && break; memory=0; done 2>/dev/null <"/proc/$process/status"
    printf '\r\033[Kpdn: %s, %d s, %d MB' "$(stage_of "$process" "$wanted" "$1" "${written[@]}")" "$SECONDS" $((${memory:-0} / 1000)) >&2
    sleep 0.5
  done
}

# Whether a Python is there for what is explained and summed up.
has_python() { command -v python3 >/dev/null 2>&1; }

# Runs the program with standard output held back to be printed as it stands, and says more on standard error.
# Where nothing is to be said beside it, the program takes the place of the shell.
run_program() {
  local program=$1 word is_quiet= is_asked= held status
  local -a words=()
  shift
  for word; do
    case $word in --quiet) is_quiet=1 ;; --explain) is_asked=1 ;; --force) ;; *) words+=("$word") ;; esac
  done
  [ -n "${PDN_EXPLAIN:-}" ] && is_asked=1
  if [ -n "$is_quiet" ] || { [ -z "$is_asked" ] && ! [ -t 2 ]; } || ! held=$(mktemp -d 2>/dev/null); then
    exec "$program" "${words[@]}"
  fi
  run_held
  status=$?
  print_held || status=3
  case $status in 0|1) sum_up ;; *) explain_answer ;; esac
  exit "$status"
}

# Runs the program in the foreground, so that an interrupt reaches it, with the progress beside it.
run_held() {
  local watcher= ended
  if [ -t 2 ] && [ -d "/proc/$$" ]; then
    (sleep 1; [ -s "$held/process" ] && show_progress "$(<"$held/process")" "${words[@]}") >/dev/null &
    watcher=$!
  fi
  # (behind the start of the watcher: a child that is ended before it has begun would run a trap that it has inherited)
  trap 'rm -rf "$held"' EXIT
  (echo "$BASHPID" >"$held/process"; exec "$program" "${words[@]}" >"$held/line")
  ended=$?
  if [ -n "$watcher" ]; then
    { kill "$watcher"; wait "$watcher"; } 2>/dev/null
    printf '\r\033[K' >&2
  fi
  return "$ended"
}

# Prints what the program printed, byte for byte. Where that fails, the program's status for it is 3.
print_held() {
  trap '' PIPE
  [ ! -s "$held/line" ] || cat "$held/line" 2>/dev/null
}

# The summary of a success, where its files are there to be read. Nothing that goes wrong in it changes the answer.
sum_up() {
  if has_python; then python3 "$top/tools/summary" "${words[@]}" >&2; fi
  return 0
}

explain_answer() {
  if has_python; then
    python3 "$top/tools/explain" --line-file "$held/line" "$status" "${words[@]}" >&2
  elif [ "$status" -eq 2 ] && [ -n "${words[0]:-}" ]; then
    print_help "${words[0]}" >&2
  fi
  return 0
}
