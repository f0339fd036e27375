# Completions of audit_recording for bash.
_audit_recording() {
  local word=${COMP_WORDS[COMP_CWORD]} before=${COMP_WORDS[COMP_CWORD - 1]}
  case $before in
    --min-events | --granularity-ns | --credit-ns | --debit-ns | --slack-ns | --drift-ns) return ;;
    --out)
      compopt -o filenames
      mapfile -t COMPREPLY < <(compgen -d -- "$word")
      return
      ;;
  esac
  if [[ $word == -* ]]; then
    mapfile -t COMPREPLY < <(compgen -W \
      "--out --min-events --debug --granularity-ns --credit-ns --debit-ns --slack-ns --drift-ns -h --help -V --version" \
      -- "$word")
  else
    compopt -o filenames
    mapfile -t COMPREPLY < <(compgen -f -- "$word")
  fi
}
complete -F _audit_recording audit_recording
