# Completions of audit_recording for fish.
complete -c audit_recording -l out -x -a '(__fish_complete_directories)' \
  -d 'Writes each stretch and its companion into this folder, which has to be there'
complete -c audit_recording -l min-events -x -d 'Judges no stretch with fewer events [default: 1]'
complete -c audit_recording -l debug -r \
  -d 'What sched/debug printed as the recording began: the floors (min_vruntime) at the start'
complete -c audit_recording -l granularity-ns -x \
  -d 'Status 1 where a picked task is more than N above the least virtual runtime (vruntime)'
complete -c audit_recording -l credit-ns -x \
  -d 'Status 1 where a woken task is placed more than N below the floor (min_vruntime)'
complete -c audit_recording -l debit-ns -x \
  -d 'Status 1 where a new task is placed more than N above the floor (min_vruntime)'
complete -c audit_recording -l slack-ns -x -d 'Status 1 where a processor idles longer than N beside a waiting task'
complete -c audit_recording -l drift-ns -x -d 'Status 1 where charges stray more than N in sum from exact ones'
complete -c audit_recording -s h -l help -d 'Print help'
complete -c audit_recording -s V -l version -d 'Print version'
