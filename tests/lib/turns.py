"""A recording whose page is too large to be drawn whole, made so that what the page has to show from afar can be said.

One processor, whose time is cut into 16,384 slots of 32 steps.  In each slot there are four turns: of task 101, 102,
101 and 102.  Slot S has its long turn at S % 4: 20 steps beside 4, and in one of each eight slots 26 beside 2.  Task
103 waits from the start on, until it has the last turn of slot 12,286, and ends.  In the last quarter the slot's last
step is idle: both tasks sleep before it, and wake at the beginning of the next slot.
"""

from lib import made

SLOTS, TURNS, STEPS, EACH = 16384, 4, 32, 8
# A step in microseconds and in nanoseconds, and the end of all.
STEP, STEP_NS = 5, 5000
SPAN = SLOTS * STEPS * STEP_NS
# The slots before these are those in which 103 waits, and those in which nobody sleeps.
STARVED, BUSY = 12_286, 12_288
START = 100 * 10**6
# What the picks before the task that waits so long lead by is below this.
SETTINGS = "--granularity-ns", "1s"


def turns_of(slot):
    """How many steps each turn of a slot has."""
    long, short = (26, 2) if slot % EACH == slot // EACH % EACH else (20, 4)
    return [long if turn == slot % TURNS else short for turn in range(TURNS)]


class Turns:
    """The texts, and what has happened in them, in nanoseconds from the start.  A run is told by its begin, length, task,
    virtual runtime, first and last line, and charge; a wait by the same without the charge; the lead of a pick by its
    time, amount, task and line."""

    def __init__(self):
        self.trace, self.claims = [], []
        self.runs, self.waits, self.leads = [], [], []
        self.step = 0
        self.virtual = {101: 0, 102: 0, 103: 0}
        self.running, self.since = 101, (0, 0)
        self.waiting = {102: (0, 0), 103: (0, 0)}
        for slot in range(SLOTS):
            self.slot(slot, turns_of(slot))
        self.wake_both()
        self.end()

    def slot(self, slot, turns):
        sleeps = slot >= BUSY
        if sleeps and slot > BUSY:
            self.wake_both()
        elif slot:
            self.switch(b"R+" if self.running != 103 else b"X", 101)
        for turn, steps in enumerate(turns):
            last = turn == TURNS - 1
            if turn:
                after = 103 if last and slot == STARVED else 102 if turn % 2 else 101
                self.switch(b"S" if last and sleeps else b"R+", after)
            self.step += steps
        if sleeps:
            self.step -= 1
            self.switch(b"S", 0)
            self.step += 1

    def wake_both(self):
        for pid in 102, 101:
            self.event(made.woken(named(pid), 0))
            self.claim(pid)
            self.waiting[pid] = self.now(), self.line()
        self.switch(b"R", 101)

    def switch(self, state, after):
        before, now = self.running, self.now()
        self.event(made.switched(named(before), state, named(after)))
        if before:
            self.end_run(self.line())
        if before and state == b"R+":
            self.claim(before)
            self.waiting[before] = now, self.line()
        if after:
            self.end_wait(after, self.line())
            least = min((self.virtual[pid] for pid in self.waiting), default=self.virtual[after])
            self.leads.append((now, max(0, self.virtual[after] - least), after, self.line()))
        self.running, self.since = after, (now, self.line())

    def end_run(self, line):
        begin, first = self.since
        length, pid = self.now() - begin, self.running
        self.runs.append((begin, length, pid, self.virtual[pid], first, line, length))
        self.virtual[pid] += length

    def end_wait(self, pid, line):
        begin, first = self.waiting.pop(pid)
        self.waits.append((begin, self.now() - begin, pid, self.virtual[pid], first, line))

    def end(self):
        """What goes on at the end ends on no line."""
        self.end_run(0)
        for pid in list(self.waiting):
            self.end_wait(pid, 0)
        self.waits.sort()

    def now(self):
        return self.step * STEP_NS

    def line(self):
        return len(self.trace)

    def event(self, text):
        running = self.running
        self.trace.append(made.head(START + self.step * STEP, 0, b"t%d" % running, running) + text)

    def claim(self, pid):
        self.claims.append(b"at %d %d %d\n" % (self.line(), pid, self.virtual[pid]))

    def companion(self):
        tasks = b"task 101 0 0 run 0\n", b"task 102 0 0 wait 0\n", b"task 103 0 0 wait 0\n"
        return made.beginning(), *tasks, *self.claims


def named(pid):
    return pid, 120, b"t%d" % pid
