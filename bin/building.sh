# Sourced by the commands of this folder: builds what is missing, older than its sources or made by another kit. The command sets `command`,
# its own name, and `root`, the repository.
built=$root/target/built # stamps and logs of what is built here
program=$root/crates/unloop/out/unloop
library=$root/crates/exports/out/libexports.a
driver=$root/target/driver/release/unloop-files
unset UNLOOP_LIBRARY # for tests alone: the driver is linked with what ships
source "$root/bin/progress.sh"

source "$root/bin/telling.sh"

# The kit's line, as `rt version` has it, or nothing where there is no kit. It is read from the kit's own file where that is found, since rt takes a
# third of a second to start.
kit_line() {
  local rt file
  rt=$(command -v rt) || return 0
  file=$(dirname "$(dirname "$(readlink -f "$rt")")")/KIT-ID
  if [[ -r $file ]]; then cat "$file"; else rt version 2>/dev/null || true; fi
}
kit=$(kit_line)

# Whether a result is missing, older than one of its sources, or made by another kit than the one that is here. A build that finds nothing to
# do leaves its result old, so the stamp of the last build counts as well; it names the kit, unless rt was run by hand.
is_stale() {
  local result=$1 seen=$1 stamp=$built/${1##*/} sources
  [[ -e $result ]] || return 0
  if [[ -n $kit && -s $stamp && $(<"$stamp") != "$kit" ]]; then return 0; fi
  if [[ $stamp -nt $result ]]; then seen=$stamp; fi
  if [[ $result == "$driver" ]]; then
    sources=("$root/rust/src" "$root/rust/build.rs" "$root/rust/Cargo.toml" "$library")
  else
    # What a proof reads; beside it in a crate's folder stand what rt keeps and the wrong programs.
    mapfile -t sources < <(shopt -s nullglob && printf '%s\n' "$root"/crates/*/{src,specs,proofs} "$root/crates.txt")
  fi
  [[ -n $(find "${sources[@]}" -newer "$seen" -print -quit) ]]
}

# Makes a result by the command behind it, which is run in a folder of the root and has no input: RESULT FOLDER WORD ..
make() {
  local result=$1 folder=$2 stamp=$built/${1##*/} log=$built/${1##*/}.log status=0 called
  shift 2
  called="'$*'"
  if [[ $folder != . ]]; then called+=" in $folder"; fi
  command -v "$1" >/dev/null || fail "'$1', which builds ${result#"$root/"}, is not on the PATH"
  if [[ $1 == rt ]]; then say_why; fi
  printf '%s: building %s\n' "$command" "${result#"$root/"}" >&2
  printf %s "$kit" >"$stamp.begun"
  if [[ $1 == rt ]]; then
    run_rt "$log" "$folder" "$@" || status=$?
  else
    (cd "$root/$folder" && "$@") </dev/null >"$log" 2>&1 9>&- || status=$?
  fi
  if [[ $status != 0 ]]; then
    print_failure "$log"
    fail "$called failed with status $status: see $log"
  fi
  [[ -e $result ]] || fail "$called made no $result: see $log"
  mv "$stamp.begun" "$stamp"
}

# Why there is anything to wait for, once.
said_why=
say_why() {
  [[ -z $said_why ]] || return 0
  said_why=yes
  printf '%s: %s\n' "$command" 'what runs here is proved first, on this machine, from the sources in crates/' \
    "$command" 'the first time this takes minutes; what is proved stays in crates/*/out/, and later runs start at once' >&2
}

# The same where the result is stale; another run may be making it already.
bring() {
  is_stale "$1" || return 0
  mkdir -p "$built" 2>/dev/null || true
  [[ -w $built ]] || fail "${1#"$root/"} has to be built, and $built can't be written"
  exec 9>"$built/lock"
  if ! flock -n 9; then
    printf '%s: waiting for another run, which is building already\n' "$command" >&2
    flock 9
  fi
  if is_stale "$1"; then make "$@"; fi
  exec 9>&-
}

# The program of the crate of this name. `rt run` proves and builds it, and then runs it, here on no input.
bring_program() {
  bring "$root/crates/$1/out/$1" "crates/$1" rt run
}

# All that the command `unloop` needs: the proved program, the proved library, and the driver over them.
bring_command() {
  bring_program unloop
  bring "$library" crates/exports rt lib
  bring "$driver" . cargo build --release --offline --quiet --manifest-path "$root/rust/Cargo.toml" --target-dir "$root/target/driver"
}

# Whether it has all that already.
has_command() {
  ! is_stale "$program" && ! is_stale "$library" && ! is_stale "$driver"
}
