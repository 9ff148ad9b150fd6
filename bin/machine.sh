# Sourced by progress.sh and .ci/run. How many processors and how much memory are used is rt's own choice.

# Seconds as a reader wants them: 75 is 1 min 15 s.
as_time() {
  if (($1 < 60)); then printf '%d s' "$1"; else printf '%d min %d s' $(($1 / 60)) $(($1 % 60)); fi
}
