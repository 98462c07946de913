# Help and version, from the texts in share/help, before any program is looked for.
# `answer_help WORD ..` ends the shell where the words ask for help, and returns where they do not.

# The version: the line of the file VERSION, or else the commit of the working tree.
print_version() {
  local version head commit
  if [ -r "$top/VERSION" ]; then
    read -r version <"$top/VERSION"
    echo "pdn $version"
    return
  fi
  [ -r "$top/.git/HEAD" ] && read -r head <"$top/.git/HEAD"
  commit=${head:-}
  [ -n "$commit" ] && [ -r "$top/.git/${commit#ref: }" ] && read -r commit <"$top/.git/${commit#ref: }"
  case $commit in
    *[!0-9a-f]*|"") echo "pdn, of no stated version" ;;
    *) echo "pdn, working tree at ${commit:0:12}" ;;
  esac
}

# The help of a command, or the general one; 2 where there is no such command.
print_help() {
  local name=${1:-pdn} line
  case $name in
    ""|*[!a-z]*) ;;
    *)
      if [ -r "$top/share/help/$name.txt" ]; then
        while IFS= read -r line || [ -n "$line" ]; do printf '%s\n' "$line"; done <"$top/share/help/$name.txt"
        return 0
      fi ;;
  esac
  echo "pdn: no command is named '$name'; 'pdn help' lists them" >&2
  return 2
}

# Whether one of the words asks for help, or for the version, in an option's place.
asks_for() {
  local short=$1 long=$2 word is_value=
  shift 2
  for word; do
    if [ -n "$is_value" ]; then
      is_value=
      [ "${word:0:1}" = - ] || continue
    fi
    [ "$word" = "$short" ] || [ "$word" = "$long" ] && return 0
    case $word in --quiet|--force|--explain|--*=*) ;; --*) is_value=1 ;; esac
  done
  return 1
}

answer_help() {
  local name=
  case ${1:-} in
    "")
      # no word: the program's own answer, and the help beside it, as for any faulty words
      if [ "$#" -eq 0 ]; then
        echo "pdn: Usage" 2>/dev/null || exit 3
        print_help >&2
        exit 2
      fi
      return ;;
    -h|--help) print_help; exit ;;
    -V|--version) print_version; exit ;;
    help) print_help "${2:-pdn}"; exit ;;
    -*) return ;;
  esac
  name=$1
  shift
  if asks_for -h --help "$@"; then print_help "$name"; exit; fi
  if asks_for -V --version "$@"; then print_version; exit; fi
}
