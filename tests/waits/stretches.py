"""The waits of a recording, from its text and the start that the companion names: the set of those who wait behind each
event, and of each task the longest stretches of these sets that have it.  No virtual runtime is looked at."""

import re
from itertools import groupby

HEAD = re.compile(rb" .{15}-\s*\d+ +(?:\([\d -]*\) +)?\[\d+\] +(?:[^ :]+ +)?(\d+)\.(\d{6}(?:\d{3})?): (.*)$", re.DOTALL)
SWITCH = re.compile(rb"sched_switch: .* prev_pid=(\d+) .* prev_state=(\S+) ==> .* next_pid=(\d+) next_prio=\S+$",
                    re.DOTALL)
TASK = re.compile(rb"(sched_wakeup|sched_wakeup_new|sched_migrate_task): .* pid=(\d+) prio=.*$", re.DOTALL)


def nanoseconds(seconds, part):
    return int(seconds) * 10**9 + int(part) * 10 ** (9 - len(part))


def stays(state):
    return b"+" in state or state.startswith(b"R") and not re.search(b"[XZx]", state)


class Walk:
    """The sets of those who run and who wait, and how the events that were read change them."""

    def __init__(self, companion):
        self.running, self.waiting, self.pids = set(), set(), []
        for words in map(bytes.split, companion.split(b"\n")):
            if words[:1] == [b"start"]:
                self.start = nanoseconds(*words[1].split(b"."))
            elif words[:1] == [b"task"]:
                self.stand(int(words[1]), words[4])

    def stand(self, pid, place):
        self.pids.append(pid)
        if place == b"run":
            self.running.add(pid)
        elif place == b"wait":
            self.waiting.add(pid)

    def pass_text(self, text):
        """Whether the text is one of the four events."""
        if switch := SWITCH.match(text):
            self.switch(int(switch[1]), switch[2], int(switch[3]))
        elif task := TASK.match(text):
            self.touch(task[1], int(task[2]))
        else:
            return False
        return True

    def switch(self, prev, state, after):
        self.running.discard(prev)
        if prev and stays(state):
            self.waiting.add(prev)
        if after:
            self.waiting.discard(after)
            self.running.add(after)

    def touch(self, event, pid):
        if event == b"sched_wakeup_new" and pid not in self.pids:
            self.pids.append(pid)
        if event != b"sched_migrate_task" and pid not in self.running:
            self.waiting.add(pid)


def states_of(trace, companion):
    """The pids in the order of the report; the moments, each with its line and its time; and who waits behind each."""
    walk = Walk(companion)
    moments, states = [(None, walk.start)], [frozenset(walk.waiting)]
    for number, line in enumerate(trace.split(b"\n"), 1):
        if (head := HEAD.match(line)) and walk.pass_text(head[3]):
            moments.append((number, nanoseconds(head[1], head[2])))
            states.append(frozenset(walk.waiting))
    return walk.pids, [*moments, (None, moments[-1][1])], states


def stretches_of(pid, states):
    """The first number of each longest stretch of states that have the pid, and the number behind it."""
    for waits, group in groupby(range(len(states)), lambda number: pid in states[number]):
        numbers = list(group)
        if waits:
            yield numbers[0], numbers[-1] + 1


def waits_of(pid, moments, states):
    """How long each wait was, and where it began and ended."""
    for first, behind in stretches_of(pid, states):
        (begun, since), (ended, until) = moments[first], moments[behind]
        yield until - since, begun, ended


def words_of_wait(wait):
    duration, begun, ended = wait
    begun = "start" if begun is None else f"line {begun}"
    ended = "end" if ended is None else f"line {ended}"
    return f"{duration} from {begun} to {ended}"


def line_of(pid, waits):
    total = sum(wait[0] for wait in waits)
    longest = f" longest {words_of_wait(max(waits, key=lambda wait: wait[0]))}" if waits else ""
    return f"waits {pid} times {len(waits)} total {total}{longest}\n"


def waits_in(trace, companion):
    """The lines of the waits."""
    pids, moments, states = states_of(trace, companion)
    waits = {pid: list(waits_of(pid, moments, states)) for pid in pids}
    # Of some that are as long `max` takes the first.
    longest = max(((wait[0], pid, wait) for pid in pids for wait in waits[pid]), key=lambda both: both[0], default=None)
    head = f"pid {longest[1]} waited {words_of_wait(longest[2])}" if longest else "none"
    return (f"longest wait {head}\n" + "".join(line_of(pid, waits[pid]) for pid in pids)).encode()
