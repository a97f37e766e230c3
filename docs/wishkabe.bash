# Completions of wishkabe for bash: its commands, as it lists them itself, and file names by their kind. `./wishkabe --install PREFIX` puts
# them under PREFIX.

# The commands with their words, a line each: of the program's usage line, or of the start script's help.
_wishkabe_forms() {
  "$1" --help 2>/dev/null | sed -nE 's/^usage: (.*, .*)/\1/; T help; s/, /\n/gp; :help; s/^  ([a-z]+( [A-Z][A-Z0-9]*)+)  .*/\1/p'
}

# Completes the word under the cursor: a command, or a file of the kind that its command takes there.
_wishkabe() {
  local word=${COMP_WORDS[COMP_CWORD]} forms form
  COMPREPLY=()
  mapfile -t forms < <(_wishkabe_forms "${COMP_WORDS[0]/#\~/$HOME}")
  if [ "$COMP_CWORD" -eq 1 ]; then
    mapfile -t COMPREPLY < <(compgen -W "${forms[*]%% *}" -- "$word")
    return
  fi
  read -ra form < <(printf '%s\n' "${forms[@]}" | grep "^${COMP_WORDS[1]} ")
  compopt -o filenames 2>/dev/null
  case ${form[COMP_CWORD - 1]-} in
    '' | STEP | NUMBER | FROM) ;;
    CELL* | SHIFT) mapfile -t COMPREPLY < <(compgen -f -X '!*.toml' -- "$word"; compgen -d -- "$word") ;;
    *) mapfile -t COMPREPLY < <(compgen -f -- "$word") ;;
  esac
}
complete -F _wishkabe wishkabe
