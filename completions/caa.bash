# Completion of the words of caa, for bash. After a < come files, as ever.
_caa() {
  local word=${COMP_WORDS[COMP_CWORD]}
  COMPREPLY=()
  case $COMP_CWORD in
    1) mapfile -t COMPREPLY < <(compgen -W 'check sim run audit graph messages pool cell --version' -- "$word") ;;
    2)
      case ${COMP_WORDS[1]} in
        sim | messages) mapfile -t COMPREPLY < <(compgen -W '1 2 3 4 5 6 7 8 9' -- "$word") ;;
        graph) mapfile -t COMPREPLY < <(compgen -W '1 2 3 4 5 6 7' -- "$word") ;;
        pool) mapfile -t COMPREPLY < <(compgen -W '1 2 3 4 5 6 7 8 9 10 11 12 13 14 15 16' -- "$word") ;;
        cell) mapfile -t COMPREPLY < <(compgen -W '1 10 100 1000 2000' -- "$word") ;;
      esac
      ;;
  esac
}
complete -o default -F _caa caa
