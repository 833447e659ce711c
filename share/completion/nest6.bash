# Completes the commands, options and files of nest6 in bash 4.3 and later.
#   source share/completion/nest6.bash        in ~/.bashrc, with the whole path
# It is also found by itself as ~/.local/share/bash-completion/completions/nest6, where the package bash-completion is there.

# The commands.
_nest6_commands='check run trace replay soak span audit explain graph missing'

# The options of a command. One that ends with = has a value.
_nest6_options() {
  case $1 in
    run) echo '--mode= --deps= --fuel= --workers= --dump --who --order' ;;
    trace) echo '--deps= --fuel=' ;;
    soak) echo '--mode= --deps= --workers=' ;;
    replay | span | audit | explain | graph | missing) echo '--fuel=' ;;
  esac
}

# The values of an option that has a list of them. The others are numbers.
_nest6_values() {
  case $1 in
    --mode=) echo 'serial waves workers' ;;
    --deps=) echo 'regions plain words' ;;
  esac
}

# The words of the line up to the cursor, in the array `words`. Bash parts an option and its value at the =, and so `--mode`, `=` and `serial`
# are one word here again.
_nest6_words() {
  local part before=''
  words=()
  for part in "${COMP_WORDS[@]:0:COMP_CWORD+1}"; do
    if [[ ${#words[@]} -gt 0 && ($part == '=' && $before == --* || $before == '=' && ${words[-1]} == --*=) ]]; then
      words[-1]+=$part
    else
      words+=("$part")
    fi
    before=$part
  done
}

# Whether two options exclude each other: `--deps` is of runs by waves, and `--who` and `--order` are of runs by workers.
_nest6_exclude() {
  case $1,$2 in
    --deps=*,--mode=serial | --deps=*,--mode=workers | --deps=*,--who | --deps=*,--order) return 0 ;;
    --who,--mode=serial | --who,--mode=waves | --who,--deps=*) return 0 ;;
    --order,--mode=serial | --order,--mode=waves | --order,--deps=*) return 0 ;;
  esac
  return 1
}

# Whether the option may stand beside the words that are there: once, and not beside one that excludes it.
_nest6_may_stand() {
  local word
  for word in "${words[@]:2:${#words[@]}-3}"; do
    [[ $word != "$1"* ]] || return 1
    ! _nest6_exclude "$1" "$word" || return 1
  done
}

# Whether the value may stand behind its option: a mode not beside an option that excludes it.
_nest6_may_be() {
  local word
  for word in "${words[@]:2:${#words[@]}-3}"; do
    ! _nest6_exclude "$word" "--mode=$1" || return 1
  done
}

# How many operands stand between the command and the word at the cursor.
_nest6_operands() {
  local word count=0
  for word in "${words[@]:2:${#words[@]}-3}"; do
    [[ $word == -* ]] || count=$((count + 1))
  done
  echo "$count"
}

# Offers what `compgen` finds for these words, a line each: names of files may have blanks.
_nest6_offer() {
  local line
  while IFS= read -r line; do
    COMPREPLY+=("$line")
  done < <(compgen "$@")
}

# Offers the options that may still stand. No blank follows one that has a value.
_nest6_offer_options() {
  local option options=''
  for option in $(_nest6_options "${words[1]}"); do
    if _nest6_may_stand "$option"; then options+=" $option"; fi
  done
  _nest6_offer -W "$options" -- "${words[-1]}"
  if [[ ${COMPREPLY[*]} == *= ]]; then compopt -o nospace 2>/dev/null; fi
}

# Offers the values of the option at the cursor. Where bash parts words at the =, it puts in the value alone.
_nest6_offer_values() {
  local option=${words[-1]%%=*}= front='' value values=''
  [[ " $(_nest6_options "${words[1]}") " == *" $option "* ]] || return 0
  _nest6_may_stand "$option" || return 0
  [[ $COMP_WORDBREAKS == *=* ]] || front=$option
  for value in $(_nest6_values "$option"); do
    if _nest6_may_be "$value"; then values+=" $front$value"; fi
  done
  _nest6_offer -W "$values" -- "$front${words[-1]#*=}"
}

# Offers files: for the program those that end with .c, and folders; for the schedule all.
_nest6_offer_files() {
  compopt -o filenames 2>/dev/null
  case ${words[1]},$(_nest6_operands) in
    soak,*) ;;
    *,0)
      _nest6_offer -f -X '!*.c' -- "${words[-1]}"
      _nest6_offer -d -- "${words[-1]}"
      ;;
    replay,1) _nest6_offer -f -- "${words[-1]}" ;;
  esac
}

_nest6() {
  local words
  COMPREPLY=()
  _nest6_words
  # what stands behind < or > is a file of the shell
  if [[ ${COMP_WORDS[COMP_CWORD - 1]} == *[\<\>] ]]; then
    compopt -o filenames 2>/dev/null
    _nest6_offer -f -- "${words[-1]}"
  elif [[ ${#words[@]} -le 2 ]]; then
    _nest6_offer -W "$_nest6_commands" -- "${words[-1]}"
  else
    case ${words[-1]} in
      --*=*) _nest6_offer_values ;;
      -*) _nest6_offer_options ;;
      *) _nest6_offer_files ;;
    esac
  fi
}

complete -F _nest6 nest6
