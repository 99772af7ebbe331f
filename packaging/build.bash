# Proves and builds programs of this repository. It is sourced, by the launcher `union` and by packaging/deb/programs, which set `top`, the
# repository's folder, and `me`, the name that each line of standard error begins with. `build_stale PROGRAM..` builds those that are
# missing or older than their sources, and ends with status 70 if it cannot. docs/BUILDING.md tells what it does.

# The MB that must be free where programs are built: rt keeps nothing of what it proves on a disk with less.
room=5000
# A build says how far it is at least each time that so many seconds have passed.
patience=60
# What rt reads of a crate. The edits of must-fail/ are left out: they are for the gate.
parts=(src specs proofs stdin stdout args status data)
# The process that is waited for, if there is one, and whether the files in the build folder are this build's.
child="" is_ours=""

say() {
  echo "$me: $*" >&2
}

die() {
  say "$*"
  exit 70
}

spent() {
  echo "$((SECONDS / 60)) min $((SECONDS % 60)) s"
}

# Reads from crates.txt what programs stand on: `crates`, the names, lowest first; `libraries`, what each names; and `list`, their lines.
read_crates() {
  local line name at lines=() needed=" $* "
  crates=() list=""
  declare -gA libraries=()
  while IFS= read -r line; do
    case $line in "" | "#"*) ;; *) lines+=("$line") ;; esac
  done <"$top/crates.txt"
  # A library's line stands above all that name it. So from the last line on, each name is known to be needed before its own line comes.
  for ((at = ${#lines[@]} - 1; at >= 0; at--)); do
    line=${lines[at]}
    name=${line%%:*} name=${name%% *}
    [[ $needed == *" $name "* ]] || continue
    libraries[$name]=${line#*:}
    needed+="${line#*:} "
    crates=("$name" "${crates[@]}")
    list=$line$'\n'$list
  done
}

is_stale() {
  local binary=$top/crates/$1/out/$1 sources=("$top/crates.txt" "$top/HANDLES" "$top/KIT") name
  [ -x "$binary" ] || return 0
  read_crates "$1"
  for name in "${crates[@]}"; do
    sources+=("$top/crates/$name/src" "$top/crates/$name/specs" "$top/crates/$name/proofs")
  done
  # A folder is newer where a file was removed or renamed.
  [ -n "$(find "${sources[@]}" -newer "$binary" -print -quit 2>/dev/null)" ]
}

# Sets `programs` to those that are missing or older than their sources.
find_stale() {
  local program
  programs=()
  for program; do
    if is_stale "$program"; then programs+=("$program"); fi
  done
}

# The file KIT names the kit that has proved the sources as they are. One of the same logic may build them, too.
look_for_kit() {
  command -v rt >/dev/null || die "the toolchain's command 'rt' is not on the path; README.md says what is needed"
  found=$(rt version 2>&1) || die "the toolchain does not work; 'rt version' says: ${found##*$'\n'}"
  wanted=$(<"$top/KIT")
  [ "${found#* logic }" = "${wanted#* logic }" ] && return
  local differ="the kit wanted is '$wanted', and the kit found is '$found'"
  [ "${UNION_ANY_KIT:-}" = 1 ] || die "$differ; UNION_ANY_KIT=1 builds with it all the same"
  say "$differ; going on, since UNION_ANY_KIT is 1"
}

# Names the files of the build. They lie outside the repository, where the gate would refuse a second crates.txt, and each
# checkout has its own.
make_build_folder() {
  local cache=${XDG_CACHE_HOME:-${HOME:+$HOME/.cache}} sum why
  [ -n "${UNION_BUILD:-}$cache" ] || die "there is no folder to build in: set HOME, or UNION_BUILD to a folder"
  read -r sum _ < <(printf %s "$top" | cksum)
  build=${UNION_BUILD:-$cache/union-catalogue}/${top##*/}-$sum
  why=$(mkdir -p "$build" 2>&1) || die "cannot make the build folder $build (${why##*: }); UNION_BUILD names another place"
  build=$(cd "$build" && pwd -P)
  case $build in
    "$top"/*) die "the build folder $build lies in the repository, whose gate refuses it; UNION_BUILD names another place" ;;
  esac
  copy=$build/copy pipe=$build/pipe log=$build/build.log
}

# Of two builds at once the second waits here. rt holds the lock too, so that it lasts until no process works in the folder, and no
# longer, however these end.
take_turn() {
  { exec {lock}>"$build/lock"; } 2>/dev/null || die "cannot write in the build folder $build; UNION_BUILD names another place"
  flock -n "$lock" && return
  say "waiting for another build in this checkout to end; its log: $log"
  # A shell answers a signal at once while it waits for a process behind it.
  flock "$lock" &
  child=$!
  wait "$child"
  child=""
}

# Finds out before the long work whether all can be written that a build writes at its end.
look_for_room() {
  local free why program put
  read -r _ _ _ free _ < <(df -Pk "$build" | tail -n 1)
  free=$((free / 1024))
  [ "$free" -ge "$room" ] || die "the disk of the build folder $build has $free MB free, and a build wants $room; UNION_BUILD names another place"
  for program in "${programs[@]}"; do
    put=$top/crates/$program/out
    why=$({ mkdir -p "$put" && : >"$put/$program.new"; } 2>&1) || die "cannot write in $put (${why##*: }), where the program goes"
  done
  # The log of an earlier build must not pass for this one's.
  why=$({ rm -rf "$log" "$copy" "$pipe" && : >"$log"; } 2>&1) || die "cannot write the log $log (${why##*: }); UNION_BUILD names another place"
}

# Copies what the programs are made of, as it stands at the time of begun. A folder .git tells rt that the copy is a repository's top.
copy_sources() {
  local name part from
  mkdir -p "$copy/.git" && : >"$copy/.git/begun" && read_crates "${programs[@]}" && printf %s "$list" >"$copy/crates.txt" &&
    cp "$top/HANDLES" "$copy/" || return
  for name in "${crates[@]}"; do
    from=()
    for part in "${parts[@]}"; do
      [ -e "$top/crates/$name/$part" ] && from+=("$top/crates/$name/$part")
    done
    mkdir -p "$copy/crates/$name" && cp -R "${from[@]}" "$copy/crates/$name/" || return
  done
}

# Reads what the proof of each crate takes, in seconds of one processor, from the table of docs/BUILDING.md. A crate that it lacks is given
# the mean of the others; without the table nothing is said of the time that is left.
read_costs() {
  local name proof sum=0
  declare -gA cost=()
  while IFS='|' read -r _ name proof _; do
    name=${name// /} proof=${proof// /}
    if [[ $name =~ ^[a-z][a-z0-9_]*$ && -n ${libraries[$name]+known} && $proof =~ ^[1-9][0-9]*$ ]]; then
      cost[$name]=$proof sum=$((sum + proof))
    fi
  done 2>/dev/null <"$top/docs/BUILDING.md"
  [ "${#cost[@]}" -gt 0 ] || return
  local mean=$((sum / ${#cost[@]}))
  for name in "${crates[@]}"; do cost[$name]=${cost[$name]:-$mean}; done
}

# The minutes that are left: the longest chain of crates that are not proved, or all of them shared out among the processors, whichever is
# more. A crate's seconds are those of the table, made longer or shorter as those of the crates that are done turned out; one that takes
# longer is given a fifth of what it took so far.
minutes_left() {
  local at name below since left sum=0 longest=0 processors
  local -A above=()
  processors=$(nproc)
  for ((at = ${#crates[@]} - 1; at >= 0; at--)); do
    name=${crates[at]} left=0
    if [ -z "${ended[$name]-}" ]; then
      since=$((SECONDS - ${begun[$name]:-$SECONDS}))
      left=$((cost[$name] * taken / foretold - since))
      [ "$left" -ge "$((since / 5))" ] || left=$((since / 5))
      [ "$left" -ge 5 ] || left=5
    fi
    sum=$((sum + left)) left=$((left + ${above[$name]:-0}))
    [ "$left" -le "$longest" ] || longest=$left
    for below in ${libraries[$name]}; do
      [ "${above[$below]:-0}" -ge "$left" ] || above[$below]=$left
    done
  done
  [ "$((sum / processors))" -le "$longest" ] || longest=$((sum / processors))
  left=$(((longest + 30) / 60))
  echo "$((left > 1 ? left : 1))"
}

# Notes which crates are under way: rt makes a crate's folder out/ when it begins with it.
look_for_begun() {
  local name
  under_way=()
  for name in "${crates[@]}"; do
    if [[ -z ${ended[$name]-} && -d $copy/crates/$name/out ]]; then
      under_way+=("$name")
      begun[$name]=${begun[$name]:-$SECONDS}
    fi
  done
}

# What comes after the number of crates that are proved: what is under way, as it is given, and the time that is left. Where crates are
# kept, it is not known yet how many more are, so no time is told.
outlook() {
  [[ ${#under_way[@]} -gt 0 && $news != *"(kept)" ]] || return
  echo -n "; $1"
  if [ "${#cost[@]}" -gt 0 ]; then
    local minutes
    minutes=$(minutes_left)
    echo -n "; about $minutes minute$([ "$minutes" = 1 ] || echo s) left"
  fi
}

# Says what was put off, with what is given added.
say_news() {
  if [ -n "$news" ]; then
    say "$news${1:-}"
    news="" last_said=$SECONDS
  fi
}

# In a second of silence rt has begun with what could follow the crate that it has proved. So only then is it said what is under way.
listen() {
  look_for_begun
  say_news "$(outlook "${#under_way[@]} under way")"
  if [ "$((SECONDS - last_said))" -ge "$patience" ]; then
    news="${#ended[@]} of ${#crates[@]} crates proved, $(spent)"
    say_news "$(outlook "under way: ${under_way[*]}")"
  fi
}

# Notes that a crate is proved, and what its proof took, unless it was kept; what follows its name is said too.
end_crate() {
  say_news
  ended[$1]=1
  if [[ -z ${2:-} && -n ${begun[$1]-} && -n ${cost[$1]-} ]]; then
    taken=$((taken + SECONDS - begun[$1])) foretold=$((foretold + cost[$1]))
  fi
  news="${#ended[@]} of ${#crates[@]} crates proved, $(spent): $1${2:-}"
}

# Tells what one line of rt's output says of the progress.
tell() {
  local line=${1#rt: }
  case $1 in
    # What is not kept the next build proves again.
    "rt: note: the disk "* | "rt: note: "*" nothing is kept"* | "rt: waiting for "*) say "$line" ;;
    "rt: note: "* | "rt: "*": its tests are proved") ;;
    "rt: "*" NOT PROVED"*) say "$line ($(spent))" ;;
    "rt: "*" proved") end_crate "${line% proved}" ;;
    "rt: "*" is kept: "*) end_crate "${line%% is kept: *}" " (kept)" ;;
    "rt: "*": another run on this machine is proving the same"*) say "$line" ;;
  esac
}

# Runs rt ci over the copy. It proves crates side by side, first those with the longest chain of others above them, and keeps each
# proved crate beside the kit: a later build, or the gate, takes it from there.
prove() {
  local line part="" status news="" last_said=$SECONDS under_way=()
  # (the first minute counts as foretold, so that one small crate decides little)
  local taken=60 foretold=60
  local -A begun=() ended=()
  mkfifo "$pipe" || return
  (cd "$copy" && exec rt ci) </dev/null >"$pipe" 2>&1 &
  child=$!
  while true; do
    IFS= read -r -t 1 line
    status=$?
    if [ "$status" -gt 128 ]; then
      part+=$line
      listen
    elif [ "$status" -gt 0 ]; then
      break
    else
      { printf '%s\n' "$part$line" >>"$log"; } 2>/dev/null || die "cannot write the log $log"
      tell "$part$line"
      part=""
    fi
  done <"$pipe"
  say_news
  wait "$child"
  status=$?
  child=""
  return "$status"
}

# Puts each program in its place by a rename, so that no half of it is ever run. Its time is the one at which the build began: whatever
# was changed since then is newer.
install_programs() {
  local program put
  for program in "${programs[@]}"; do
    put=$top/crates/$program/out/$program
    cp "$copy/crates/$program/out/$program" "$put.new" && chmod 755 "$put.new" && touch -r "$copy/.git/begun" "$put.new" &&
      mv -f "$put.new" "$put" || return
  done
}

# Ends what the build started and removes what it has half made. The prover's processes end with rt, however that ends.
clean() {
  local program
  if [ -n "$child" ]; then
    kill "$child" 2>/dev/null
    wait "$child" 2>/dev/null
    child=""
  fi
  if [ -n "$is_ours" ]; then
    rm -rf "$copy" "$pipe"
    for program in "${programs[@]}"; do rm -f "$top/crates/$program/out/$program.new" 2>/dev/null; done
  fi
  is_ours=""
}

interrupt() {
  trap - EXIT INT TERM HUP
  [ -z "$child" ] || kill "$child" 2>/dev/null
  say "interrupted after $(spent); the next build goes on from what rt has kept"
  clean
  kill -s "$1" $$
}

# Builds `programs`. What a build takes the first time is said if `takes` tells it, and what can be done meanwhile if `meanwhile` does.
build() {
  is_ours=1
  look_for_room
  copy_sources || die "the sources could not be copied to $copy"
  read_costs
  say "building ${programs[*]}; log: $log; kit wanted: $wanted; kit found: $found"
  say "${#crates[@]} crates to prove${takes:+: $takes the first time (here are $(nproc))}, less where an earlier build kept some"
  [ -z "${meanwhile:-}" ] || say "$meanwhile"
  if ! prove; then
    say "the build failed after $(spent); its log is $log, and its end says:"
    tail -n 20 "$log" >&2
    exit 70
  fi
  install_programs || die "all is built, and could not be put in its place in $top/crates"
  say "built in $(spent)"
}

build_stale() {
  local signal
  find_stale "$@"
  [ "${#programs[@]}" -gt 0 ] || return 0
  SECONDS=0
  trap clean EXIT
  for signal in INT TERM HUP; do trap "interrupt $signal" "$signal"; done
  look_for_kit
  make_build_folder
  take_turn
  # The build that was waited for may have made them.
  find_stale "$@"
  [ "${#programs[@]}" -eq 0 ] || build
  clean
  trap - EXIT INT TERM HUP
  exec {lock}>&-
}
