# Completions of sched_audit for bash.
_sched_audit() {
  local word=${COMP_WORDS[COMP_CWORD]} before=${COMP_WORDS[COMP_CWORD - 1]}
  case $before in
    --color) mapfile -t COMPREPLY < <(compgen -W "auto always never" -- "$word"); return ;;
    --granularity-ns | --credit-ns | --debit-ns | --slack-ns | --drift-ns) return ;;
  esac
  if [[ $word == -* ]]; then
    mapfile -t COMPREPLY < <(compgen -W \
      "--granularity-ns --credit-ns --debit-ns --slack-ns --drift-ns --least --waits --explain --summary --states --json --color -h --help -V --version" \
      -- "$word")
  else
    compopt -o filenames
    mapfile -t COMPREPLY < <(compgen -f -- "$word")
  fi
}
complete -F _sched_audit sched_audit
