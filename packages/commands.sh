# What ./unison and the `unison` of a package share: which program has a command, models in the place of programs, and what is told below a
# fault line. A script that reads it sets `own`, as which it is called, `own_names`, those of what it does itself, `viewer`, into which pages
# are put, `studio` and `modules`, the folders of the studio and of the viewer's modules, and `top`, that in which `examples` and `docs` are
# that the studio shows. It has these functions: find_program NAME sets `program` to the one that answers for NAME, and `note` to what is told of it;
# find_built NAME sets `program` alone, and fails where that one is to be built first;
# list_names sets `names` to those of the commands, and is_named NAME tells whether this is one; more_help tells what the script does besides,
# below the help of the programs, and own_help NAME more of one of these; tell_version tells the version.
work= input=
trap '[ -z "$input" ] || kill "$input" 2>/dev/null; [ -z "$work" ] || rm -rf "$work"' EXIT

say() { echo "unison: $*" >&2; }

# Makes the folder for what is read once and told of.
make_work() {
  [ -n "$work" ] && return
  work=$(mktemp -d) && : >"$work/stdin" || exit 1
}

# What it does besides, below the help of one of the five commands.
model_help() {
  cat <<TEXT

By $own itself:
      --const <NAME=VALUE>  Where PROGRAM is a model, a file whose name ends in .model: give a constant this value, a whole number from 0 to 4294967295; as often as wanted
      --quiet               Leave out notes on what is accepted and may not be meant
TEXT
}

# What `lockstep` takes besides, by the program of the other commands, as its help says it; nothing where that program is to be built first.
lockstep_help() {
  local program
  choose_built unison_lab && "$program" lockstep --help | sed -n '/^ *--set </,/^ *--sequential/p'
}

# Sets `name` to the program that has a command. `lockstep` with words that the program of the five commands does not have is one of the other.
find_name() {
  case ${1-} in
  lockstep)
    name=unison_cli
    ! asks_more "$@" || name=unison_lab
    ;;
  check | run | replay | compare) name=unison_cli ;;
  *) name=unison_lab ;;
  esac
}

# Whether one of the words asks for initial values, another form or threads.
asks_more() {
  local word
  for word; do
    case $word in
    --set | --set=* | --set-file | --set-file=* | --set-random | --set-random=* | --overlap | --seed | --seed=*) return 0 ;;
    --format | --format=* | --field | --field=* | --threads | --threads=* | --sequential) return 0 ;;
    esac
  done
  return 1
}

# Whether the script does this command itself.
is_own() {
  local name
  for name in "${own_names[@]}"; do
    [ "$name" != "$1" ] || return 0
  done
  return 1
}

# Sets `program` to the one that answers for NAME, in the folder that UNISON_PROGRAMS names, or else where the script has it.
choose() {
  if [ -z "${UNISON_PROGRAMS-}" ]; then
    find_program "$1"
    return
  fi
  program=$UNISON_PROGRAMS/$1 note=
  [ -x "$program" ] && return
  say "there is no program $program: UNISON_PROGRAMS names a folder that has it"
  exit 1
}

# Sets `program` to the one that answers for NAME, where it need not be built first.
choose_built() {
  program=${UNISON_PROGRAMS-}/$1
  if [ -n "${UNISON_PROGRAMS-}" ]; then [ -x "$program" ]; else find_built "$1"; fi
}

tell_note() {
  if [ -n "$note" ] && [ "${UNISON_QUIET-}" != 1 ]; then say "$note"; fi
}

# Whether the program has this command: each is named, but for old names.
is_command() { is_named "$1" || "$program" "$1" --help </dev/null >/dev/null 2>&1; }

# Tells the command whose name is nearest to a word, below its fault line.
tell_nearest() {
  local name nearest known=()
  list_names
  for name in "${names[@]}"; do
    case $name in
    *[!a-z]*) ;;
    *) known+=("$name") ;;
    esac
  done
  # (without python3 nothing is told)
  nearest=$(python3 -c 'import difflib, sys; print(*difflib.get_close_matches(sys.argv[1], sys.argv[2:], 1))' "$1" "${known[@]}" "${own_names[@]}" 2>/dev/null)
  [ -z "$nearest" ] || echo "the nearest one is \`$nearest\`" >&2
}

# The first word that names a pipe, which cannot be read twice; standard input is kept.
first_pipe() {
  local word
  for word; do
    [ "$word" != /dev/stdin ] && [ -p "$word" ] && echo "$word" && return
  done
}

# Below a fault line of one of the five commands: what `why` says of the same words, where that is more. The first argument is what the
# command said, the others are its words. It fails where nothing more is said.
explain() {
  local said=$1 told lines pipe program note
  shift
  pipe=$(first_pipe "$@")
  if [ -n "$pipe" ]; then
    echo "$pipe is a pipe, which is read once: name a file, or - for standard input, to be told where" >&2
    return
  fi
  choose unison_lab
  told=$("$program" why "$@" 2>"$work/why" <"$work/stdin")
  lines=$(sed 1d "$work/why")
  [ "$(head -n 1 "$work/why")" = "$(head -n 1 <<<"$said")" ] || told='' lines=$(unwritten "$@")
  [ "${lines//unison why /unison }" != "$(sed 1d <<<"$said")" ] || lines=
  [ -z "$told" ] || echo "$told" >&2
  [ -z "$lines" ] || echo "$lines" >&2
  [ -n "$told$lines" ]
}

# Tells what one of the five commands said of a fault, and below it what `why` says. A line that is the bare name of an option stands there
# where `why` says no more alone.
tell_fault() {
  local said=$1 shown=$1 option=
  shift
  if [[ $said =~ ^fault:\ usage$'\n'([a-z-]+)$'\n'?$ ]]; then shown=$'fault: usage\n' option=${BASH_REMATCH[1]}; fi
  printf %s "$shown" >&2
  explain "$said" "$@" || [ -z "$option" ] || echo "$option" >&2
}

# Begins to tell the notes on what one of the five commands accepts, beside the command: where no text comes from standard input. Of words that
# are refused it tells nothing, since the command does.
begin_notes() {
  local program
  notes=
  if [ -z "$quiet" ] && [ "$reads" = 0 ] && choose_built unison_lab; then
    tell_notes "$@" &
    notes=$!
  fi
}

tell_notes() {
  local told
  told=$("$program" why --notes "$@" 2>&1 >/dev/null </dev/null) && [ -n "$told" ] && echo "$told" >&2
}

# What is told of a trace that could not be written, which `why` does not look for.
unwritten() {
  local before='' word reason
  for word; do
    case $before:$word in
    --trace:*) ;;
    *:--trace=*) word=${word#--trace=} ;;
    *) before=$word && continue ;;
    esac
    reason=$({ : >>"$word"; } 2>&1) || echo "$word: ${reason##*: }"
    before=
  done
}

# Sets `words` to the words of a command with standard input where a file is named `-`, and `reads` to how many are.
standard_input() {
  local before='' word
  words=() reads=0
  for word; do
    case $before:$word in
    --trace:*) ;;
    *:- | *:/dev/stdin) word=/dev/stdin reads=$((reads + 1)) ;;
    *:--from=-) word=--from=/dev/stdin reads=$((reads + 1)) ;;
    esac
    words+=("$word")
    before=$word
  done
}

# Sets `words` to the words of one of the five commands but for `--quiet`, and `quiet` to whether it is there.
without_quiet() {
  local word
  words=() quiet=
  for word; do
    if [ "$word" = --quiet ]; then quiet=1; else words+=("$word"); fi
  done
}

# Looks for a model among the words of one of the five commands: sets `model` to the word that names it, and `constants` to the words that
# give constants values.
find_model() {
  local before='' word
  model= constants=()
  for word; do
    case $before:$word in
    --const:*) constants+=("--const=$word") ;;
    *:--const=*) constants+=("$word") ;;
    --trace:* | --from:*) ;;
    *:*.model) [ -n "$model" ] || model=$word ;;
    esac
    before=$word
  done
}

# Puts the program that the model is expanded to in its place among `words`, and leaves out those that give constants values. Ends where
# the model has no program.
expand_model() {
  local before='' word others=()
  make_work
  choose unison_lab
  "$program" expand ${constants[@]+"${constants[@]}"} -- "$model" >"$work/program.rules" || { status=$? && tell_note && exit "$status"; }
  for word in "${words[@]}"; do
    case $before:$word in
    --const:* | *:--const | *:--const=*) ;;
    --trace:* | --from:*) others+=("$word") ;;
    *:"$model") others+=("$work/program.rules") ;;
    *) others+=("$word") ;;
    esac
    before=$word
  done
  words=("${others[@]}")
}

# Looks at the first bytes of standard input where that is a pipe: sets `first` to them, and gives all of it to what reads it.
look_at_input() {
  first=
  [ "$reads" = 1 ] && [ -p /dev/stdin ] || return
  make_work
  head -c 8 >"$work/first"
  [ "$(tr -d '\0' <"$work/first")" != UNISONW1 ] || first=UNISONW1
  exec < <(exec cat "$work/first" -)
  input=$!
}

# Sets `packed` to the word among `words` that names a packed network, which begins with UNISONW1, where one does.
find_packed() {
  local word begin first
  packed=
  look_at_input
  for word in "${words[@]}"; do
    begin=
    if [ "$word" = /dev/stdin ] && [ -n "$first" ]; then
      begin=$first
    elif [ -f "$word" ]; then
      IFS= read -r -N 8 begin 2>/dev/null <"$word"
    fi
    [ "$begin" != UNISONW1 ] || packed=$word
  done
}

# Sets `others` to `words` with another word in the place of the packed network.
instead_of_packed() {
  local word
  others=()
  for word in "${words[@]}"; do
    if [ "$word" = "$packed" ]; then others+=("$1"); else others+=("$word"); fi
  done
}

# Puts the network file that says the same as a packed network in its place among `words`. Where no network file says it, `lockstep` is done by
# the other program, and another command ends with the reason.
unpack_network() {
  local status others kept=$packed named=$packed
  make_work
  choose unison_lab
  if [ "$packed" = /dev/stdin ]; then
    kept=$work/stdin named=-
    cat >"$kept"
  fi
  "$program" init -- "$named" >"$work/network.toml" 2>"$work/refused" <"$kept"
  status=$?
  if [ "$status" = 0 ]; then
    instead_of_packed "$work/network.toml"
    words=("${others[@]}") reads=0
    return
  fi
  instead_of_packed "$named"
  if [ "${words[0]}" = lockstep ]; then
    "$program" "${others[@]}" ${quiet:+--quiet} <"$kept"
    status=$?
  else
    cat "$work/refused" >&2
  fi
  tell_note
  exit "$status"
}

# Runs one of the five commands, of which standard output, the fault line and the status are what the program gives. Standard input is read
# once, by the command; what it read is there for what is told of a fault.
run_five() {
  local said status tee
  if [ "$reads" -gt 0 ]; then
    make_work
    exec {given}< <(exec tee "$work/stdin")
    tee=$!
  else
    exec {given}<&0
  fi
  begin_notes "$@"
  # (what stands behind the last line end is kept by the x)
  { said=$("$program" "${words[@]}" 2>&1 >&3 3>&- <&"$given" || { status=$?; printf x; exit "$status"; } && printf x); } 3>&1
  status=$?
  [ -z "${tee-}" ] || kill "$tee" 2>/dev/null
  [ -z "$notes" ] || wait "$notes"
  case $status:$said in
  2:* | 3:* | 1:"fault: file"*) make_work && tell_fault "${said%x}" "$@" ;;
  *) printf %s "${said%x}" >&2 ;;
  esac
  case $status:${2-} in
  0:--help | 0:-h)
    model_help
    [ "$1" != lockstep ] || lockstep_help
    ;;
  esac
  tell_note
  exit "$status"
}

# Runs one of the five commands, where its words name standard input once at most, and constants for a model alone. Else it says nothing, and
# `why` refuses them, in its words.
try_five() {
  standard_input "$@"
  find_model "$@"
  [ "$reads" -le 1 ] || return
  [ -z "$model" ] || expand_model
  [ -n "$model" ] || [ "${#constants[@]}" = 0 ] || return
  find_packed
  [ -z "$packed" ] || unpack_network
  [ -z "$model$packed" ] || choose unison_cli
  run_five "$@"
}

# Runs a command of unison_lab, which is chosen, and tells below it what is told besides.
run_other() {
  local nearest_to='' status
  case ${1-} in
  -* | "") ;;
  *) is_command "$1" || nearest_to=$1 ;;
  esac
  case $nearest_to$* in
  --help | "") ;;
  *) [ -n "$note$nearest_to" ] || exec "$program" "$@" ;;
  esac
  "$program" "$@"
  status=$?
  [ -z "$nearest_to" ] || tell_nearest "$nearest_to"
  case $* in
  --help) more_help ;;
  "") more_help >&2 ;;
  esac
  tell_note
  exit "$status"
}

# Starts the studio, a page in the browser whose server runs commands by the program that is chosen. It is told that this one is proved where that
# is known: of one in a folder of the caller's, or of another compiler, it is not.
start_studio() {
  local word proved=
  if ! command -v python3 >/dev/null; then
    say "the studio is a server in Python, and there is no python3 here: install it (3.9 or later), and put it on the PATH"
    exit 1
  fi
  for word; do
    case $word in
    -h | --help) exec python3 "$studio/start" --its-called="$own" --help ;;
    esac
  done
  choose unison_lab
  tell_note
  [ -n "$note${UNISON_PROGRAMS-}" ] || [ "${UNISON_BUILD-}" = rattle ] || proved=yes
  exec python3 "$studio/start" --its-called="$own" --its-program="$program" --its-viewer="$viewer" --its-modules="$modules" \
    --its-top="$top" --its-version="$(tell_version)" --its-note="$note" --its-proved="$proved" "$@"
}

# Runs the words of a command line: a command by the program that has it, the studio, or the version.
run_words() {
  local name
  case ${1-} in
  studio)
    shift
    start_studio "$@"
    ;;
  --version | -V) tell_version && exit ;;
  help)
    shift
    if is_own "${1-}"; then own_help "$1" && exit; fi
    [ $# -gt 0 ] && set -- "$@" --help || set -- --help
    ;;
  page)
    case " $* " in
    *" --viewer"*) ;;
    *) set -- "$@" --viewer "$viewer" ;;
    esac
    ;;
  esac
  find_name "$@"
  choose "$name"
  if [ "$name" = unison_cli ]; then
    without_quiet "$@" && set -- "${words[@]}"
    try_five "$@"
    choose unison_lab
    set -- why "$@"
  fi
  run_other "$@"
}
