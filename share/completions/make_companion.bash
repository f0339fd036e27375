# Completions of make_companion for bash.
_make_companion() {
  local word=${COMP_WORDS[COMP_CWORD]} before=${COMP_WORDS[COMP_CWORD - 1]}
  case $before in
    --credit-ns | --debit-ns) return ;;
    --strategy)
      mapfile -t COMPREPLY < <(compgen -W "kernel low high picked level best" -- "$word")
      return
      ;;
  esac
  if [[ $word == -* ]]; then
    mapfile -t COMPREPLY < <(compgen -W \
      "--strategy --debug --credit-ns --debit-ns -h --help -V --version" \
      -- "$word")
  else
    compopt -o filenames
    mapfile -t COMPREPLY < <(compgen -f -- "$word")
  fi
}
complete -F _make_companion make_companion
