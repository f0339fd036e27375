# Completions of sched_audit for fish.
complete -c sched_audit -l granularity-ns -x \
  -d 'How far above the least virtual runtime (vruntime) a picked task may be [default: 1000000]'
complete -c sched_audit -l credit-ns -x \
  -d 'How far below the floor (min_vruntime) a woken task may be placed [default: 3000000]'
complete -c sched_audit -l debit-ns -x \
  -d 'How far above the floor (min_vruntime) a new task may be placed [default: 3000000]'
complete -c sched_audit -l slack-ns -x -d 'How long a processor may idle beside a waiting task [default: 100000]'
complete -c sched_audit -l drift-ns -x \
  -d "How far the companion's charges may stray in sum from exact ones [default: 0]"
complete -c sched_audit -l least -d 'Print the least settings at which the recording is a run'
complete -c sched_audit -l waits -d 'After the report of a run, say how long each task waited'
complete -c sched_audit -l explain -d 'After a fault or a refusal, say why in lines that begin with #'
complete -c sched_audit -l summary -d 'Print only the counts of a run, and no line for each task'
complete -c sched_audit -l states -r -d 'Write how the processor stands at each event to FILE, a JSON line for each'
complete -c sched_audit -l json -d 'Print the report as one JSON object'
complete -c sched_audit -l color -x -a 'auto always never' \
  -d 'Colour the explanation: auto (on a terminal), always or never'
complete -c sched_audit -s h -l help -d 'Print help'
complete -c sched_audit -s V -l version -d 'Print version'
