# Sourced by the commands of this folder, and by the installed bench: how they fail. The command sets `command`, its own name.
fail() {
  printf '%s: %s\n' "$command" "${1//[[:cntrl:]]/?}" >&2
  exit 2
}
