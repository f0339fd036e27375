# Completions of make_companion for fish.
complete -c make_companion -l strategy -x -a 'kernel low high picked level best' \
  -d 'How tasks are placed: kernel, or by guess: low, high, picked, level, best [default: kernel]'
complete -c make_companion -l debug -r \
  -d 'What sched/debug printed as the recording began: the floors (min_vruntime) at the start'
complete -c make_companion -l credit-ns -x \
  -d 'How far below the floor (min_vruntime) a woken task may be placed [default: 3000000]'
complete -c make_companion -l debit-ns -x \
  -d 'How far above the floor (min_vruntime) a new task may be placed [default: 3000000]'
complete -c make_companion -s h -l help -d 'Print help'
complete -c make_companion -s V -l version -d 'Print version'
