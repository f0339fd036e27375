#!/usr/bin/env python3
"""lead.py TRACE..: how far a kernel's picks were above the least that waited, from what it printed alone

For each recording with lines of `sched_stat_runtime`: the greatest distance, over all switches to a task, from the
task's virtual runtime to the least of those that wait at the processor, in virtual nanoseconds, and the line of that
switch.  A task that was put back has what was printed of it last since it came there, or what it had.  Any other that
waits (woken, born, moved, or there from the start) has what is printed of it next, less what its run up to there cost,
by 1024 over its weight; one that sleeps or is moved before that, or of which nothing more is printed, is left out.  No
floor, no companion and no rule of the audit comes in.
"""

import re
import sys
from bisect import bisect_right
from pathlib import Path

sys.path.insert(0, str(Path(__file__).resolve().parent.parent))

from lib.words import WEIGHTS

SWITCH = re.compile(r".*\[(\d+)\].*: sched_switch: .* prev_pid=(\d+) prev_prio=\d+ prev_state=(\S+) ==> "
                    r".* next_pid=(\d+) next_prio=(\d+)$")
COMES = re.compile(r".*: sched_(wakeup|wakeup_new): .* pid=(\d+) prio=(\d+) target_cpu=(\d+)$")
MOVES = re.compile(r".*: sched_migrate_task: .* pid=(\d+) prio=(\d+) orig_cpu=(\d+) dest_cpu=(\d+)$")
PRINTS = re.compile(r".*: sched_stat_runtime: .* pid=(\d+) runtime=(\d+) \[ns\] vruntime=(\d+) \[ns\]$")


def lead_of(lines):
    printed, moved, events = {}, {}, []
    for number, line in enumerate(lines, 1):
        if found := PRINTS.match(line):
            pid, runtime, value = map(int, found.groups())
            printed.setdefault(pid, []).append((number, runtime, value))
        elif found := SWITCH.match(line):
            cpu, prev, state, following, prio = found.groups()
            stays = "+" in state or not re.search("[XZx]", state) and state.startswith("R")
            events.append((number, "switch", int(cpu), int(prev), stays, int(following), int(prio)))
            if not stays:
                moved.setdefault(int(prev), []).append(number)
        elif found := COMES.match(line):
            how, pid, prio, cpu = found.groups()
            events.append((number, how, int(cpu), int(pid), int(prio)))
            if how == "wakeup_new":
                moved.setdefault(int(pid), []).append(number)
        elif found := MOVES.match(line):
            pid, prio, origin, cpu = map(int, found.groups())
            events.append((number, "move", cpu, pid, prio))
            moved.setdefault(pid, []).append(number)

    def following(pid, number, prio):
        """What the task has from this line on, until it runs; None where that can't be told."""
        there = printed.get(pid, [])
        place = bisect_right(there, (number, sys.maxsize))
        moves = moved.get(pid, [])
        move = bisect_right(moves, number)
        if place == len(there) or move < len(moves) and moves[move] < there[place][0]:
            return None
        _, runtime, value = there[place]
        return value - runtime * 1024 // WEIGHTS[prio - 100]

    # Who waits: by pid the processor and the value. Of a task that waits at the start it shows when it is picked.
    waits, runs = {}, {}
    named = set()
    for number, what, cpu, pid, *more in events:
        if what == "switch" and more[1] not in named and more[1]:
            waits[more[1]] = cpu, following(more[1], 0, more[2])
        if what == "move" and pid not in named:
            # It waited if it is picked without a wakeup in between.
            for later, sort, place, one, *rest in events:
                if later > number and sort == "switch" and pid in (one, rest[1]):
                    waits[pid] = next(e for e in events if e[0] == number)[2], None
                    break
                if later > number and sort in ("wakeup", "wakeup_new") and one == pid:
                    break
        named.update({pid, more[1]} if what == "switch" else {pid})
    # Since when each stands where it does: what was printed before is of another place.
    since = {}
    greatest, where, left_out = 0, 0, 0
    for number, what, cpu, pid, *more in events:
        if what == "switch":
            stays, picked, prio = more
            _, had = runs.pop(cpu, (pid, None))
            if stays and pid:
                there = printed.get(pid, [])
                place = bisect_right(there, (number, 0)) - 1
                is_printed = place >= 0 and there[place][0] > since.get(pid, 0)
                waits[pid] = cpu, there[place][2] if is_printed else had
            if picked:
                value = waits.pop(picked, (cpu, None))[1]
                runs[cpu] = picked, value
                others = [v for home, v in waits.values() if home == cpu and v is not None]
                left_out += value is None
                if value is not None and others and value - min(others) > greatest:
                    greatest, where = value - min(others), number
        elif what == "move":
            since[pid] = number
            if pid in waits:
                waits[pid] = cpu, following(pid, number, more[0])
        elif pid not in waits and pid not in (who for who, _ in runs.values()):
            since[pid] = number
            waits[pid] = cpu, following(pid, number, more[0])
    return greatest, where, left_out


def main():
    for name in sys.argv[1:]:
        with open(name, encoding="latin1") as text:
            greatest, where, left_out = lead_of([line.rstrip("\n") for line in text])
        print(f"{name}: lead {greatest} ns, line {where}; {left_out} picks of unknown value")
    return 0


if __name__ == "__main__":
    sys.exit(main())
