# Sourced by bin/install, which sets `prefix`: puts files below the prefix and notes them in a list there, removes what a list has, and makes what
# is only made for an installation: the shared library and the file for pkg-config.
list=share/unloop/installed # a line each, in the order in which they were made: `folder`, or a SHA-256 sum; then the path below the prefix
module=share/unloop/python/unloop.py
notes=()
changed=0 # how many files remove_installed left, since they are others than were installed

# The sum of a file's content, or of the path that a link has.
sum_of() {
  if [[ -L $1 ]]; then readlink -n -- "$1"; else cat -- "$1"; fi | sha256sum | cut -d ' ' -f 1
}

# Makes a folder below the prefix, and those above it; new ones are noted: PATH, or . for the prefix itself.
make_folder() {
  [[ ! -d $prefix/$1 ]] || return 0
  if [[ $1 == . ]]; then
    mkdir -p -- "$prefix" || fail "can't make $prefix"
  else
    make_folder "$(dirname -- "$1")"
    mkdir -- "$prefix/$1" || fail "can't make $prefix/$1"
  fi
  notes+=("folder $1")
}

# Puts a file somewhere with a mode: MODE SOURCE PLACE.
put() {
  make_folder "$(dirname -- "$3")"
  command install -m "$1" -- "$2" "$prefix/$3" || fail "can't write $prefix/$3"
  notes+=("$(sum_of "$prefix/$3") $3")
}

# Puts a link somewhere: TARGET PLACE.
put_link() {
  make_folder "$(dirname -- "$2")"
  ln -sfn -- "$1" "$prefix/$2" || fail "can't write $prefix/$2"
  notes+=("$(sum_of "$prefix/$2") $2")
}

# Writes the list, also where the installation has failed: what was put is then known.
keep_list() {
  if ((${#notes[@]} == 0)) || [[ ! -d $prefix/${list%/*} ]]; then return; fi
  printf '%s\n' "${notes[@]}" >"$prefix/$list"
}

# Tells of a file that was left, and counts it: PLACE.
tell_changed() {
  printf '%s: %s was changed since it was installed, and is left\n' "$command" "$prefix/$1" >&2
  changed=$((changed + 1))
}

# Removes the files of the list, what Python compiled beside the module, the list, and then the folders of the list that are empty. Of each file
# that is another now the command is called with its path: COMMAND.
remove_installed() {
  local lines i kind place
  mapfile -t lines <"$prefix/$list"
  for place in "${lines[@]#* }"; do
    [[ $place != /* && /$place/ != */../* ]] || fail "$prefix/$list is no list of bin/install: it has $place"
  done
  for ((i = ${#lines[@]} - 1; i >= 0; i--)); do
    kind=${lines[i]%% *} place=${lines[i]#* }
    [[ $kind != folder && (-e $prefix/$place || -L $prefix/$place) ]] || continue
    if [[ -d $prefix/$place || $(sum_of "$prefix/$place") != "$kind" ]]; then
      "$1" "$place"
    else
      rm -f -- "$prefix/$place"
    fi
  done
  rm -f -- "$prefix/${module%/*}/__pycache__"/unloop.*.pyc "$prefix/$list"
  rmdir -- "$prefix/${module%/*}/__pycache__" 2>/dev/null || true
  for ((i = ${#lines[@]} - 1; i >= 0; i--)); do
    [[ ${lines[i]} == 'folder '* ]] || continue
    place=$prefix/${lines[i]#* }
    rmdir -- "${place%/.}" 2>/dev/null || true
  done
}

# The functions that the header declares.
declared_functions() {
  sed -n 's/^unloop_[a-z]* \(unloop_[a-z_]*\)(.*/\1/p' "$root/include/unloop.h"
}

# Links the whole archive as a shared library that shows these functions and nothing else: PLACE.
link_shared() {
  command -v gcc >/dev/null || fail "'gcc', which links libunloop.so.1, is not on the PATH"
  {
    echo '{ global:'
    declared_functions | sed 's/$/;/'
    echo 'local: *; };'
  } >"$1.map"
  gcc -shared -Wl,-soname,libunloop.so.1 -Wl,-z,defs -Wl,-z,text -Wl,-z,relro -Wl,-z,now -Wl,--version-script="$1.map" \
    -Wl,--whole-archive "$library" -Wl,--no-whole-archive -o "$1" || fail "gcc can't link libunloop.so.1"
}

# What pkg-config tells; it finds the prefix by where the file is. The version is the command's.
write_pc() {
  local version
  version=$("$driver" "$program" --version)
  cat <<PC
prefix=\${pcfiledir}/../..
libdir=\${prefix}/lib
includedir=\${prefix}/include

Name: unloop
Description: takes loops out of gate netlists, by proof
Version: ${version#unloop }
Libs: -L\${libdir} -lunloop
Cflags: -I\${includedir}
PC
}
