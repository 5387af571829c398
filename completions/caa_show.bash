# Completion of the words of caa_show, for bash. After the view comes a file, as ever.
_caa_show() {
  COMPREPLY=()
  if [ "$COMP_CWORD" -eq 1 ]; then
    mapfile -t COMPREPLY < <(compgen -W 'explain table warn graph chart story where page trace rehearse faults playing interlock lines --help --version' -- "${COMP_WORDS[COMP_CWORD]}")
  elif [ "$COMP_CWORD" -eq 3 ] && [ "${COMP_WORDS[1]}" = warn ]; then
    COMPREPLY=(notes)
  fi
}
complete -o default -F _caa_show caa_show
