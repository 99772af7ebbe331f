# bash completion for union(1)

_union() {
  local word=$2 command=${COMP_WORDS[1]-}
  COMPREPLY=()
  if [ "$COMP_CWORD" -eq 1 ]; then
    mapfile -t COMPREPLY < <(compgen -W "check tojson fromjson export works watch follow script trial --help --version" -- "$word")
    return
  fi
  # The line is parted at each '=', so the word after one is a path.
  if [ "$word" = "=" ] || [ "${COMP_WORDS[COMP_CWORD - 1]}" = "=" ]; then
    [ "$word" != "=" ] || word=""
    compopt -o filenames 2>/dev/null
    mapfile -t COMPREPLY < <(compgen -f -- "$word")
    return
  fi
  case $command in
    script)
      compopt -o filenames 2>/dev/null
      mapfile -t COMPREPLY < <(compgen -f -- "$word")
      ;;
    export)
      mapfile -t COMPREPLY < <(compgen -W "--workers= --prefer= --names= --json --owners" -- "$word")
      ;;
    works)
      mapfile -t COMPREPLY < <(compgen -W "--workers= --prefer= --names=" -- "$word")
      ;;
    watch)
      mapfile -t COMPREPLY < <(compgen -W "--ask= --workers= --prefer= --names=" -- "$word")
      ;;
    follow)
      mapfile -t COMPREPLY < <(compgen -W "--ask=" -- "$word")
      ;;
  esac
  [[ ${COMPREPLY[0]-} != --*= ]] || compopt -o nospace 2>/dev/null
}

complete -F _union union
