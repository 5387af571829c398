# Completion of the words of caa_bridge, for bash. After the options and the way to play come two files.
_caa_bridge() {
  local word=${COMP_WORDS[COMP_CWORD]} at=1
  COMPREPLY=()
  while [ "$at" -lt "$COMP_CWORD" ] && [[ ${COMP_WORDS[at]} == --* ]]; do
    at=$((at + 1))
  done
  if [ "$COMP_CWORD" -eq "$at" ]; then
    mapfile -t COMPREPLY < <(compgen -W 'sim run pool --go-on --strict --sync --help --version' -- "$word")
  elif [ "$COMP_CWORD" -eq $((at + 1)) ]; then
    case ${COMP_WORDS[at]} in
      sim) mapfile -t COMPREPLY < <(compgen -W '1 2 3 4 5 6 7 8 9' -- "$word") ;;
      pool) mapfile -t COMPREPLY < <(compgen -W '1 2 3 4 5 6 7 8 9 10 11 12 13 14 15 16' -- "$word") ;;
    esac
  fi
}
complete -o default -F _caa_bridge caa_bridge
