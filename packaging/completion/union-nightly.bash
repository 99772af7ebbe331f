# bash completion for union-nightly(1)

_union_nightly() {
  local word=$2
  COMPREPLY=()
  if [[ $word == -* ]]; then
    mapfile -t COMPREPLY < <(compgen -W "--take= --help --version" -- "$word")
    [[ ${COMPREPLY[0]-} != --*= ]] || compopt -o nospace 2>/dev/null
  elif [ "$word" != "=" ] && [ "${COMP_WORDS[COMP_CWORD - 1]}" != "=" ]; then
    compopt -o filenames 2>/dev/null
    mapfile -t COMPREPLY < <(compgen -f -- "$word")
  fi
}

complete -F _union_nightly union-nightly
