# Sourced by bin/install: writes what the shells complete behind `unloop`. All options, what each needs and what is said of it come from
# usage.txt by arguments.sh, so that a new option is completed as soon as it is told there.
source "$root/bin/arguments.sh"

# Of each long option what stands behind it (a folder, a file, a word that nobody can guess, or nothing), and what is said of it up to the first stop;
# what it goes with (with --into: ...) is kept before that.
declare -A kind brief
describe_options() {
  local option text lead with='^((with|of) [^:]*: )(.*)'
  read_options
  for option in "${long_options[@]}"; do
    case ${needed[$option]} in
      '') kind[$option]=nothing ;;
      DIR) kind[$option]=folder ;;
      NAME) kind[$option]=word ;;
      *) kind[$option]=file ;;
    esac
    text=${told[$option]#instead: } lead=
    if [[ $text =~ $with ]]; then lead=${BASH_REMATCH[1]} text=${BASH_REMATCH[3]}; fi
    text=${text/'? '/'?; '}
    text=${text%%[;:.] *}
    brief[$option]=$lead${text%% (*}
  done
}

# All options of one kind, short forms too, as a pattern of bash: KIND.
pattern_of() {
  local option joined=
  for option in "${long_options[@]}"; do
    if [[ ${kind[$option]} == "$1" ]]; then joined+="|$option${short[$option]:+|${short[$option]}}"; fi
  done
  printf %s "${joined:1}"
}

complete_bash() {
  local option all=
  for option in "${long_options[@]}"; do all+="${short[$option]:+${short[$option]} }$option "; done
  cat <<SCRIPT
# What bash completes behind unloop. Made by bin/install from the command's own usage text.
_unloop() {
  local word=\${COMP_WORDS[COMP_CWORD]} before=\${COMP_WORDS[COMP_CWORD - 1]} given
  # --into=DIR is three words to bash.
  if [[ \$word == = ]]; then
    word=
  elif [[ \$before == = ]]; then
    before=\${COMP_WORDS[COMP_CWORD - 2]}
  fi
  for given in "\${COMP_WORDS[@]:1:COMP_CWORD - 1}"; do
    if [[ \$given == -- ]]; then before=--; fi
  done
  compopt -o filenames
  case \$before in
    $(pattern_of folder)) mapfile -t COMPREPLY < <(compgen -d -- "\$word") ;;
    $(pattern_of word)) COMPREPLY=() ;;
    -- | $(pattern_of file)) mapfile -t COMPREPLY < <(compgen -f -- "\$word") ;;
    *)
      if [[ \$word == -* ]]; then
        compopt +o filenames
        mapfile -t COMPREPLY < <(compgen -W '${all% }' -- "\$word")
      else
        mapfile -t COMPREPLY < <(compgen -f -- "\$word")
      fi
      ;;
  esac
}
complete -F _unloop unloop
complete -f unloop-bench
SCRIPT
}

complete_zsh() {
  local option text action quote="'\\''"
  printf '%s\n' '#compdef unloop' "# What zsh completes behind unloop. Made by bin/install from the command's own usage text." '_arguments -s -S \'
  for option in "${long_options[@]}"; do
    text=${brief[$option]//\'/$quote}
    text=${text//\[/\\[}
    text=${text//\]/\\]}
    case ${kind[$option]} in
      nothing) action= ;;
      folder) action=":${needed[$option]}:_files -/" ;;
      word) action=":${needed[$option]}: " ;;
      file) action=":${needed[$option]}:_files" ;;
    esac
    if [[ -n ${short[$option]} ]]; then
      printf "  '(%s %s)%s[%s]%s' \\\\\n" "${short[$option]}" "$option" "${short[$option]}${action:++}" "$text" "$action"
      printf "  '(%s %s)%s[%s]%s' \\\\\n" "${short[$option]}" "$option" "$option${action:+=}" "$text" "$action"
    else
      printf "  '%s[%s]%s' \\\\\n" "$option${action:+=}" "$text" "$action"
    fi
  done
  printf "  '*:FILE:_files'\n"
}

complete_fish() {
  local option rest quote="\\'"
  echo "# What fish completes behind unloop. Made by bin/install from the command's own usage text."
  for option in "${long_options[@]}"; do
    case ${kind[$option]} in
      nothing) rest= ;;
      folder) rest=" -x -a '(__fish_complete_directories)'" ;;
      word) rest=' -x' ;;
      file) rest=' -r -F' ;;
    esac
    printf "complete -c unloop%s -l %s%s -d '%s'\n" "${short[$option]:+ -s ${short[$option]#-}}" "${option#--}" "$rest" \
      "${brief[$option]//\'/$quote}"
  done
}
