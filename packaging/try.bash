# Runs the program before it is proved, for a first look at small files. It is sourced, by the launcher `union`, after build.bash and
# help.bash: `try_program PROGRAM WORDS..` leaves the program's status in `status`, and ends with 70 if the try gives no answer.
#
# `rt try` compiles the sources with checks of each access, and keeps no file. It runs the program in a folder of its own, so the program is
# given whole paths, and writes lines of its own after those of the program.

# The bytes that the files of a try may have together.
most=10000000

# Adds the bytes of a file to `total`.
add_bytes() {
  local size
  size=$(find -L "$1" -maxdepth 0 -type f -printf %s 2>/dev/null)
  total=$((total + ${size:-0}))
}

# Makes `path` the whole path of a file, or of a copy where it is a pipe or a device.
whole_path() {
  path=$1
  [[ $path == /* ]] || path=$PWD/$path
  if [[ -r $path && ! -f $path && ! -d $path ]]; then
    copies=$((copies + 1))
    head -c "$((most + 1))" <"$path" >"$scratch/$copies"
    path=$scratch/$copies
  fi
  add_bytes "$path"
}

# Makes `path` the whole path of a script, or of a copy in which its lines `load` have whole paths.
whole_script() {
  local folder script line
  whole_path "$1"
  [[ -f $path && -r $path ]] || return 0
  script=$path path=$scratch/script
  folder=$(sed 's/[\\&|]/\\&/g' <<<"$PWD/")
  LC_ALL=C sed -E "/^load [A-Z0-9]+ \r?\$/! s|^(load [A-Z0-9]+ )([^/])|\1$folder\2|" <"$script" >"$path"
  while IFS= read -r line || [ -n "$line" ]; do
    line=${line%$'\r'}
    [[ ! $line =~ ^load\ [A-Z0-9]+\ (.+)$ ]] || add_bytes "${BASH_REMATCH[1]}"
  done 2>/dev/null <"$path"
}

# Makes `handed` of the words, with whole paths. What is wrong with a word stays wrong: its path stays empty, or is no path.
hand_over() {
  local word
  handed=()
  for word; do
    case ${handed[0]-}:$word in
      :*) ;;
      script:?*)
        whole_script "$word"
        word=$path
        ;;
      *:--ask=?* | *:--names=?* | *:[!-]*=?*)
        whole_path "${word#*=}"
        word=${word%%=*}=$path
        ;;
    esac
    handed+=("$word")
  done
}

# The program's commands, of its help in the sources: to ask the program would be another try.
commands_of() {
  cat "$top"/crates/*/src/*.rt | commands_in
}

start_try() {
  cd "$top/crates/$1" && shift && exec rt try -- "$@"
}

# How the lines begin that are the toolchain's own.
own_lines="interpreter:|checked:|races:|call=|calls=|run=|rt:"

try_program() {
  local program=$1 path total=0 copies=0 handed
  shift
  if [ $# -eq 1 ] && [ "$1" = -h ]; then set -- --help; fi
  is_foreseen "$@" && return
  look_for_kit
  scratch=$(mktemp -d) || die "there is no folder for files that are needed for a moment; TMPDIR names another"
  trap 'rm -rf "$scratch"' EXIT
  hand_over "$@"
  [ "$total" -le "$most" ] ||
    die "the files have $total bytes, and --try takes $most: it is for a first look; './union --version' builds the program for more"
  say "nothing is proved yet: checks at run time stand in the proof's place; './union --version' proves and builds the program"
  run_child start_try "$program" "${handed[@]}" </dev/null >"$scratch/out" 2>"$scratch/said"
  if ! [[ $(tail -n 1 "$scratch/said") =~ ^run=ended\ status=[0-9]+\ .*proved=no$ ]]; then
    say "the try gave no answer, and its end says:"
    tail -n 20 "$scratch/said" >&2
    exit 70
  fi
  cat "$scratch/out" 2>/dev/null || status=5
  sed -E "/^($own_lines)/d" "$scratch/said" >&2
  help_after "$status" "$program" "$@"
}
