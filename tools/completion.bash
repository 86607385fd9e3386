# Completion of the scripts in bin/ for bash: source tools/completion.bash

# Offers words for the current one; those that end with = or ( are gone on with.
_p4_offer() {
  local word=${COMP_WORDS[COMP_CWORD]}
  mapfile -t COMPREPLY < <(compgen -W "$1" -- "$word")
  [[ ${COMPREPLY[0]-} != *[=\(] ]] || compopt -o nospace 2> /dev/null
}

_p4_files() {
  compopt -o filenames 2> /dev/null
  mapfile -t COMPREPLY < <(compgen -f -- "${COMP_WORDS[COMP_CWORD]}")
}

_p4switch() {
  local at=1 command previous=${COMP_WORDS[COMP_CWORD-1]}
  [ "${COMP_WORDS[1]-}" != --preview ] || at=2
  command=${COMP_WORDS[at]-}
  if [ "$COMP_CWORD" -le $at ]; then
    _p4_offer "serve replay check gen --help --version $([ $at = 2 ] || echo --preview)"
    return
  fi
  case $previous in
    --port | --packets | --workers | --device | --cpu | --rows) return ;;
    "<" | ">") _p4_files; return ;;
  esac
  case $command in
    serve) _p4_offer "--port --packets --workers --device --cpu --rows" ;;
    replay) _p4_offer "--lockstep --bridge --device --cpu --rows" ;;
  esac
}

_p4tape() {
  local command=${COMP_WORDS[1]-} word=${COMP_WORDS[COMP_CWORD]}
  if [ "$COMP_CWORD" = 1 ]; then
    _p4_offer "$(_p4_commands "${COMP_WORDS[0]}") --help"
  elif [[ $word = -* ]]; then
    _p4_offer "$(_p4_options "${COMP_WORDS[0]}" "$command")"
  else
    _p4_files
  fi
}

_p4config() {
  local command=
  if [ "$COMP_CWORD" -gt 1 ] && [ "${COMP_WORDS[1]}" = draw ]; then command=draw; fi
  case ${COMP_WORDS[COMP_CWORD]} in
    -*) _p4_offer "$(_p4_options "${COMP_WORDS[0]}" $command)" ;;
    *)
      _p4_files
      [ "$COMP_CWORD" != 1 ] || [[ draw != "${COMP_WORDS[1]}"* ]] || COMPREPLY=(draw "${COMPREPLY[@]}")
      ;;
  esac
}

# The commands that a script's help has in its usage line, which is to be one line: {a,b,c} or a | b | c.
_p4_commands() {
  COLUMNS=1000 "$1" --help 2> /dev/null | sed -n '1,/^$/p' | grep -o '{[a-z,-]*}\|[a-z-]* | .*' | head -1 | tr -d '{}' | sed 's/ \.\.\.//; s/[|,]/ /g'
}

# The options that a script's help has, of a command where one is given.
_p4_options() {
  "$@" --help 2> /dev/null | grep -oE -- '--[a-z][a-z0-9-]*' | sort -u | tr '\n' ' '
}

# A script whose words are options and files.
_p4_plain() {
  case ${COMP_WORDS[COMP_CWORD]} in
    -*) _p4_offer "$(_p4_options "${COMP_WORDS[0]}")" ;;
    *) _p4_files ;;
  esac
}

# The words of a line of p4ctl, asked of p4ctl itself, which asks the switch for its names and values.
_p4ctl() {
  local at=1 word=${COMP_WORDS[COMP_CWORD]} options=() text last before found
  while [[ ${COMP_WORDS[at]-} = --* && $at -lt $COMP_CWORD ]]; do
    options+=("${COMP_WORDS[at]}")
    at=$((at + 1))
    # (HOST:PORT is three words to bash)
    while [ $at -lt $COMP_CWORD ] && [[ ${COMP_WORDS[at]} != --* ]]; do
      if [[ ${COMP_WORDS[at]} = : || ${options[-1]} = *: ]]; then options[-1]+=${COMP_WORDS[at]}
      elif [[ ${options[-1]} = --* ]]; then options+=("${COMP_WORDS[at]}")
      else break; fi
      at=$((at + 1))
    done
  done
  if [[ $word = --* && $at = "$COMP_CWORD" ]]; then
    _p4_offer "$(_p4_options "${COMP_WORDS[0]}")"
    return
  fi
  if [[ ${COMP_WORDS[at]-} = play || ${COMP_WORDS[at]-} = config && $COMP_CWORD -gt $((at + 1)) ]]; then
    _p4_files
    return
  fi
  text=${COMP_LINE:0:COMP_POINT}
  text=$(_p4_line "$text" "${options[@]}")
  text=${text//[\'\"]/}
  last=${text##*[ ,(]}
  # What bash takes for the current word stands before the part that is completed.
  before=${word%"$last"}
  [[ $word = *"$last" ]] || before=
  while read -r found; do
    [ -n "$found" ] || continue
    if [[ $last = *=* && $word != *"$last" ]]; then found=${found#*=}; fi
    COMPREPLY+=("$before$found")
  done < <("${COMP_WORDS[0]}" "${options[@]}" --complete "$text" 2> /dev/null)
  [[ ${COMPREPLY[0]-} != *[=\(] ]] || compopt -o nospace 2> /dev/null
}

# The text of a command line behind its command and its options.
_p4_line() {
  local text=${1#* } option
  shift
  for option in "$@"; do
    text=${text#"${text%%[! ]*}"}
    text=${text#"$option"}
  done
  echo -n "${text#"${text%%[! ]*}"}"
}

complete -F _p4switch p4switch
complete -F _p4tape p4tape
complete -F _p4ctl p4ctl
complete -F _p4config p4config
complete -F _p4_plain p4front p4ports p4lab
