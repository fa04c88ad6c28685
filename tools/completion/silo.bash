# Completion of silo's words for bash:  source tools/completion/silo.bash
# First a folder, then a command that fits it, then that command's options.

_silo() {
  local word=${COMP_WORDS[COMP_CWORD]} before=${COMP_WORDS[COMP_CWORD - 1]} folder=${COMP_WORDS[1]} found
  COMPREPLY=()
  # The folder as the shell will hand it over: without its backslashes, and its ~ as what that stands for.
  folder=${folder//\\/}
  folder=${folder/#\~\//$HOME/}
  # Behind a `<` stands a file.
  if [[ $before == "<" || $before == ">" ]]; then
    compopt -o default 2>/dev/null
    return
  fi
  if [ "$COMP_CWORD" -eq 1 ]; then
    if [[ $word == -* ]]; then
      # The launcher of the repository has it, the program itself hasn't.
      [[ ${COMP_WORDS[0]} != */* ]] || mapfile -t COMPREPLY < <(compgen -W "--help" -- "$word")
    else
      compopt -o filenames 2>/dev/null
      mapfile -t COMPREPLY < <(compgen -d -- "${word//\\/}")
    fi
    return
  fi
  if [ "$COMP_CWORD" -eq 2 ]; then
    found="init load check"
    [ ! -e "$folder/manager-0.otx" ] || found="run show history audit compact upgrade migrate check"
    mapfile -t COMPREPLY < <(compgen -W "$found" -- "$word")
    return
  fi
  case $before in
    --width) found="1 8 64" ;;
    --workers) found="1 2 4" ;;
    --turns) found="" ;;
    *)
      case ${COMP_WORDS[2]} in
        run) found="--width --workers --turns" ;;
        load) [ "$COMP_CWORD" -lt 5 ] || found="--width --workers" ;;
      esac
      ;;
  esac
  mapfile -t COMPREPLY < <(compgen -W "$found" -- "$word")
}

complete -F _silo silo ./silo
