# Sourced by building.sh: runs rt and tells on standard error how far it is, on a terminal by one line that is rewritten each second,
# elsewhere by a line for each quarter of the crates. Goes by the lines `rt: chose --jobs N for NAME` with which rt begins a crate; all it writes
# is kept in a log.
source "$root/bin/machine.sh"

# The crates that rt proves for these names, in its order: a crate behind all that it is built on (crates.txt).
planned() {
  awk -v wanted="$*" '
    function take(name,    parts, count, part) {
      if (name in taken) return
      taken[name] = 1
      count = split(needs[name], parts, " ")
      for (part = 1; part <= count; part++) if (parts[part] in needs) take(parts[part])
      print name
    }
    { sub(/#.*/, "") }
    split($0, line, ":") == 2 { split(line[1], words, " "); needs[words[1]] = line[2] }
    END {
      count = split(wanted, names, " ")
      for (one = 1; one <= count; one++) take(names[one])
    }' "$root/crates.txt"
}

# How far it is, of run_rt's variables: the crate at work, or each quarter once. What rt finds proved it does not name.
tell_progress() {
  local begun at told=0 time
  begun=$(sed -n 's/^rt: chose --jobs [0-9]* for //p' "$log" 2>/dev/null | tail -n 1)
  for at in "${!crates[@]}"; do if [[ ${crates[at]} == "$begun" ]]; then told=$at; fi; done
  time=$(as_time $((SECONDS - began)))
  if [[ -t 2 ]]; then
    printf '\r%-78s' "$command: crate $((told + 1)) of $total, ${crates[told]} ($time)" >&2
  elif ((4 * told / total > quarter)); then
    quarter=$((4 * told / total))
    printf '%s: %d of %d crates (%s)\n' "$command" "$told" "$total" "$time" >&2
  fi
}

# Runs rt in the folder of a crate, with no input and all output in a log, and ends with its status: LOG FOLDER rt WORD. It stands in the
# foreground, so that an interrupt ends it too; what tells of it beside ends with the pipe that is held open meanwhile.
run_rt() {
  local log=$1 folder=$2 crates total status=0 quarter=0 began=$SECONDS held teller
  shift 2
  mapfile -t crates < <(planned "${folder##*/}")
  total=${#crates[@]}
  : >"$log"
  exec {held}> >(
    exec 9>&-
    tell_progress
    while read -r -t 1; (($? > 128)); do tell_progress; done
  )
  teller=$!
  (cd "$root/$folder" && "$@") </dev/null >"$log" 2>&1 9>&- {held}>&- || status=$?
  exec {held}>&-
  wait "$teller" || true
  if [[ -t 2 ]]; then printf '\r%-78s\r' '' >&2; fi
  if [[ $status == 0 ]]; then printf '%s: %d crates are proved (%s)\n' "$command" "$total" "$(as_time $((SECONDS - began)))" >&2; fi
  return "$status"
}

# What a log has of the crate that was begun last, which is the one that is not proved; of a log that names none, all of it.
print_failure() {
  awk '
    /^rt: chose --jobs / { held = "" }
    { held = held $0 "\n" }
    END { printf "%s", held }' "$1" >&2
}
