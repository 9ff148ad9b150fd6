# Sourced by bin/unloop where something has to be built: looks at the words of the command line first, since nobody should wait minutes for the
# answer to a mistake. The options are those that usage.txt lists; what goes with what is the driver's matter (options.rs). completions.sh has the
# same list from here.
usage=$root/rust/src/bin/unloop-files/usage.txt

# Of each option what it needs, as DIR, or nothing; of each long one its text and its short form; and the long ones in their order.
declare -A needed told short
long_options=()
read_options() {
  local line option='' text listed='^  ((-[a-zA-Z]), )?(--[a-z-]+)(.*)' needs='^ ([A-Z]+)( +(.*)|$)' indented='^ {14}(.*)'
  while IFS= read -r line; do
    if [[ $line =~ $listed ]]; then
      option=${BASH_REMATCH[3]} text=${BASH_REMATCH[4]}
      long_options+=("$option")
      short[$option]=${BASH_REMATCH[2]}
      needed[$option]=
      if [[ $text =~ $needs ]]; then needed[$option]=${BASH_REMATCH[1]} text=${BASH_REMATCH[3]}; fi
      told[$option]=${text#"${text%%[! ]*}"}
      if [[ -n ${short[$option]} ]]; then needed[${short[$option]}]=${needed[$option]}; fi
    elif [[ -n $option && $line =~ $indented ]]; then
      told[$option]+="${told[$option]:+ }${BASH_REMATCH[1]}"
    else
      option=
    fi
  done <"$usage"
}

# Fails where an option is unknown or lacks what it needs, or where what is to be read is not there, and answers --help and --version. Sets
# `only` to the FILE, or - for standard input, where one rendering is all that is asked for.
look_at() {
  local word option value attached needs path readable=() files=() options=0 given=files
  read_options
  while (($#)); do
    word=$1
    shift
    attached=yes
    case $word in
      --) files+=("$@") && break ;;
      --*=*) option=${word%%=*} value=${word#*=} ;;
      -[!-]?*) option=${word:0:2} value=${word:2} ;;
      -?*) option=$word attached= ;;
      *) files+=("$word") && continue ;;
    esac
    options=$((options + 1))
    needs=${needed[$option]-unknown}
    case $needs in
      unknown) fail "unknown option $word (see --help)" ;;
      '')
        [[ -z $attached || $option == --audit ]] || fail "$option takes no value (see --help)"
        if [[ -n $attached ]]; then files+=("$value"); fi
        ;;
      *)
        [[ -n $attached || $# -gt 0 ]] || fail "$option needs $needs (see --help)"
        if [[ -z $attached ]]; then value=$1 && shift; fi
        ;;
    esac
    case $option in
      -h | --help) exec cat "$usage" ;;
      -V | --version) exec sed -n 's/^version = "\(.*\)"/unloop \1/p' "$root/rust/Cargo.toml" ;;
      --sheet | --run-cells) [[ $value == all ]] || readable+=("$value") ;;
      --check | --check-cells | --never) readable+=("$value") ;;
      --audit) given=entries ;;
      --store)
        [[ -d $value ]] || fail "$value: No such file or directory"
        given=names
        ;;
    esac
  done
  for path in "${readable[@]}"; do look_at_path "$path"; done
  for path in "${files[@]}"; do
    case $given in
      files) look_at_path "$path" ;;
      entries) # folders too, and files of an entry that are gone
        [[ -e $path || $path == *.@(net|out|cover|cells) ]] || fail "$path: No such file or directory"
        ;;
    esac
  done
  only=
  if ((options == 0 && ${#files[@]} < 2)); then only=${files[0]--}; fi
}

# What is to be read must be there.
look_at_path() {
  [[ $1 != - ]] || return 0
  [[ -e $1 ]] || fail "$1: No such file or directory"
  [[ ! -d $1 ]] || fail "$1: Is a directory"
  [[ -r $1 ]] || fail "$1: Permission denied"
}
