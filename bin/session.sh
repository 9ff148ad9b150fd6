# Sourced by bin/bench: a session with the proved bench. Standard output is what the proved program writes, byte for byte; what is told beside
# it (the prompt, words for refusals) goes to standard error. The command sets `command`, its own name.
refusal_words=([1]=overlong [2]=form [3]=crowded [4]=twice [5]=unknown)

# The number and the detail of a refusal line, in `number` and `detail`; fails where it is none.
refused() {
  [[ $1 =~ ^\(refused\ ([0-9]+)\ ([0-9]+)\)$ ]] || return 1
  number=${BASH_REMATCH[1]} detail=${BASH_REMATCH[2]}
}

# What the program reads before set lines: the netlist and an empty line. A last line that is cut off must not be ended by the empty line: the
# file is all of the input then, which is refused, and this fails.
netlist_input() {
  cat -- "$1"
  [[ ! -s $1 || -z $(tail -c 1 -- "$1") ]] || return 1
  echo
}

# Says on standard error what became of a set line whose answer is a refusal: the line's number, from 1 on, and the answer.
tell_line() {
  local number detail
  refused "$2" || return 0
  printf '%s: set line %s: %s %s, at byte %s of the line\n' "$command" "$1" "$number" "${refusal_words[$number]-}" "$detail" >&2
}

# Says where a netlist is refused, as compilers do; its first line and column are 1.
tell_netlist() {
  local file=$1 number=$2 detail=$3 place='' before
  if ((number == 2 || number == 4 || number == 5)); then
    before=$(head -c "$detail" -- "$file" | tr '\0' ' ' && echo .)
    before=${before%.}
    place=:$((1 + $(printf %s "$before" | wc -l))):$((1 + $(printf %s "${before##*$'\n'}" | wc -c)))
  fi
  printf '%s: %s: %s %s\n' "$command" "${file//[[:cntrl:]]/?}$place" "$number" "${refusal_words[$number]-}" >&2
}

# What stands before a line that is typed.
prompt() { printf '%s> ' "${pins% }" >&2; }

# On a terminal: the pins before each line.
converse() {
  local program=$1 netlist=$2 pins count=0 answer
  pins=$(sed -n 's/^(in \(.*\))$/\1/p' -- "$netlist" | tr '\n' ' ')
  prompt
  "$program" < <(netlist_input "$netlist" && exec cat) | while IFS= read -r answer; do
    printf '%s\n' "$answer"
    tell_line "$((count += 1))" "$answer"
    prompt
  done
  echo >&2 # behind the last prompt
}

# Elsewhere: the program's answers as they come, and of each that is a refusal its words.
answer() {
  local program=$1 netlist=$2 told watcher status=0
  exec {told}> >(grep -n --line-buffered '^(refused ' | while IFS=: read -r count line; do tell_line "$count" "$line"; done)
  watcher=$!
  "$program" < <(netlist_input "$netlist" && exec cat 2>/dev/null) | tee "/dev/fd/$told" || status=$?
  exec {told}>&-
  wait "$watcher" || true
  return "$status"
}

# A session of a program on a netlist: 1 where the netlist is refused, else the program's status.
session() {
  local program=$1 netlist=$2 first number detail
  first=$("$program" < <(netlist_input "$netlist"))
  if refused "$first"; then
    printf '%s\n' "$first"
    tell_netlist "$netlist" "$number" "$detail"
    return 1
  fi
  if [[ -t 0 && -t 2 ]]; then converse "$program" "$netlist"; else answer "$program" "$netlist"; fi
}
