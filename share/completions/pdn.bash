# Completion of the words of pdn for bash: source this file, or put it where bash-completion looks.
_pdn() {
  local word=${COMP_WORDS[COMP_CWORD]} before=${COMP_WORDS[COMP_CWORD-1]} options used
  COMPREPLY=()
  if [ "$COMP_CWORD" -eq 1 ]; then
    COMPREPLY=($(compgen -W 'build signoff solve step check generate help --help --version' -- "$word"))
    return
  fi
  case $before in
    --number|--side|--steps|--time) return ;;
    help) COMPREPLY=($(compgen -W 'build signoff solve step check generate' -- "$word")); return ;;
    --quiet|--explain|--force|--help) ;;
    --*) COMPREPLY=($(compgen -f -- "$word")); return ;;
  esac
  case ${COMP_WORDS[1]} in
    build) options='--lef --cells --def --pdn --bias --out-def --netlist --certificate --report' ;;
    signoff) options='--lef --cells --def --wires --bias --netlist --certificate --report' ;;
    solve) options='--netlist --certificate --report' ;;
    step) options='--time --steps --netlist --waves --certificate --report' ;;
    check) options='--netlist --certificate' ;;
    generate) options='--number --side --lef --cells --def --pdn --bias' ;;
    *) return ;;
  esac
  used=" ${COMP_WORDS[*]:2:COMP_CWORD-2} "
  for option in $options --quiet --explain --force --help; do
    [[ $used = *" $option "* ]] || COMPREPLY+=($(compgen -W "$option" -- "$word"))
  done
}
complete -o filenames -F _pdn pdn
