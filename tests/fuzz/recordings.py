"""Random runs of the scheduler: a machine is led by the rules of docs/RULES.md, one event after another, and each event
is written as a line of a trace, with its claim in a companion; a companion of version 2 tells changes of nice values
too, and which tasks are of the idle policy, and one of version 3 told charges besides.  So what the report has to say
of the run is known, and which settings it needs."""

from typing import NamedTuple

from lib.made import moved, switched, woken
from lib.words import (IDLE_WEIGHT, MOST_PID, MOST_SETTING, OPTIONS, STANDARD, WEIGHTS, counted, least, options_of,
                       tally)

MOST_VIRTUAL = 2**62
LAST_TIME = 2**32 * 10**9 - 1
# No floor rises by more than this within a recording.
MARGIN = 10**18
DRIFT = OPTIONS[-1]

NAMES = (b"t101", b"bash", b"Web Content", b"kworker/u16:2", b"", b" ", b"a prev_pid=1", b"x pid=7 prio=12",
         b"==> next_comm=a", b"fifteen bytes !", b"\xff\xfe\x00\r", b"sched_switch: ", b"#", b"-1     [000]")
FLAGS = (b"d..2. ", b"", b". ", b"d.h3.1[ ")
GROUPS = (b"", b"", b"(    101) ", b"(-----) ")
STAYS, SLEEPS = (b"R+", b"R", b"S+", b"x+", b"R|K", b"+|X", b"S+|K"), (b"S", b"D", b"I", b"P", b"t", b"S|K", b"r")
ENDS = (b"X", b"Z", b"x", b"RX", b"S|X", b"Z|K")
OTHERS = (b"#", b"", b"# CPU:0 [LOST EVENTS]", b"#" * 70)


class Input(NamedTuple):
    """What both auditors are called on; where they are known beforehand, the report and what is told of the least
    settings."""

    trace: bytes
    companion: bytes
    options: tuple
    report: bytes = None
    least: bytes = None


class Task:
    """A task, where it stands, and what it did; the place of one that has ended is None, and the drift is that at its
    processor."""

    def __init__(self, pid, nice, cpu, place, virtual, idle):
        self.pid, self.nice, self.cpu, self.place, self.virtual, self.idle = pid, nice, cpu, place, virtual, idle
        self.ran = self.charged = self.picks = self.drift = 0

    @property
    def prio(self):
        return 120 + self.nice

    @property
    def weight(self):
        return IDLE_WEIGHT if self.idle else WEIGHTS[self.nice + 20]


class Processor:
    """A processor: until when it has charged, and since when it has idled beside a waiting task."""

    def __init__(self, number, floor, start):
        self.number, self.floor, self.mark, self.since = number, floor, start, None


class Machine:
    """A machine in a random state, and the two texts of what happens to it."""

    def __init__(self, rng):
        self.rng = rng
        self.version = rng.choice((1, 2, 3, 3))
        self.settings = STANDARD if rng.random() < 0.6 else tuple(
            rng.choice((0, 1, 1000, standard, 10**9, MOST_SETTING)) for standard in STANDARD)
        if self.version == 3 and rng.random() < 0.7:
            self.settings = self.settings[:-1] + (rng.choice((1, 1000, 10**5, 10**6, 10**7, MOST_SETTING)),)
        self.granularity, self.credit, self.debit, self.slack, self.most_drift = self.settings
        self.needs = dict.fromkeys(OPTIONS, 0)
        self.changing = rng.choice((0, 0.05, 0.4)) if self.version > 1 else 0
        self.idling = rng.choice((0, 0.1, 0.5)) if self.version > 1 else 0
        self.telling = rng.choice((0, 0.3, 0.9, 1)) if self.version > 2 else 0
        self.unit = rng.choice((1, 1000))
        seconds = rng.choice((0, 100, 1403, 2**32 - 10**8, 2**32 - 1))
        self.start = self.time = seconds * 10**9 + rng.randrange(10**6) * 1000
        self.spread = rng.choice((1, 10**3, 10**6, 10**7))
        base = rng.choice((0, 0, 0, 10**9, -10**9, 2**40, -2**61, -MOST_VIRTUAL, MOST_VIRTUAL - self.spread + 1))
        count = rng.choice((1, 1, 1, 2, 2, 3, 4, rng.randrange(5, 17), 64))
        self.processors = [Processor(number, base + rng.randrange(self.spread), self.start) for number in range(count)]
        self.tasks, self.idles, self.claims, self.lines, self.changed, self.told = {}, [], [], [], None, None
        self.counts = dict.fromkeys(("events", "switches", "births", "deaths", "migrations"), 0)
        self.settle(base)
        self.beginning = list(self.companion())

    # The start.

    def settle(self, base):
        """Some tasks at each processor, of which at most one runs."""
        rng, running = self.rng, set()
        few = rng.choice((1, 3, 8)) * (len(self.processors) if len(self.processors) < 5 else 5)
        pids = set(rng.sample(range(1, rng.choice((200, MOST_PID + 1))), rng.randrange(few + 1)))
        for pid in sorted(pids | {MOST_PID} if rng.random() < 0.05 else pids):
            cpu, place = rng.choice(self.processors).number, rng.choice((b"run", b"wait", b"rest"))
            place = b"wait" if place == b"run" and cpu in running else place
            if place == b"run":
                running.add(cpu)
            self.tasks[pid] = Task(pid, self.nice(), cpu, place, base + rng.randrange(self.spread), self.idle())
            self.names_idle(0, self.tasks[pid])
        for processor in self.processors:
            self.note_idling(processor)

    def nice(self):
        return self.rng.choice((0, 0, 0, 5, -5, 19, -20, self.rng.randrange(-20, 20)))

    def idle(self):
        """Whether a task is of the idle policy."""
        return self.rng.random() < self.idling

    def names_idle(self, line, task):
        """The companion names a task of the idle policy: of the start, or born on a line."""
        if task.idle:
            self.idles.append(b"idle %d %d" % (line, task.pid))

    def companion(self):
        yield b"cfs-companion %d" % self.version
        yield b"cpus %d" % len(self.processors)
        yield b"start " + self.written(self.start, 1000)
        for processor in self.processors:
            yield b"floor %d %d" % (processor.number, processor.floor)
        for task in self.tasks.values():
            yield b"task %d %d %d %s %d" % (task.pid, task.nice, task.cpu, task.place, task.virtual)

    # What there is at a processor.

    def who(self, place, processor=None):
        """Those in a place, at one processor or at any."""
        return [task for task in self.tasks.values()
                if task.place == place and (processor is None or task.cpu == processor.number)]

    def running(self, processor):
        return next(iter(self.who(b"run", processor)), None)

    def note_idling(self, processor):
        idles = not self.running(processor) and self.who(b"wait", processor)
        processor.since = (self.time if processor.since is None else processor.since) if idles else None

    def need(self, option, value):
        """An event needs a setting of so much, where that is above 0."""
        self.needs[option] = max(self.needs[option], value)

    def cost(self, processor):
        """What whoever runs is to be charged up to now."""
        running = self.running(processor)
        return (self.time - processor.mark) * 1024 // running.weight if running else 0

    def charge(self, *processors):
        """Who runs is charged up to now, at the first of these processors by a told charge where there is one, and the
        floors follow the least of the queues; False where the range forbids it."""
        for processor in processors:
            running = self.running(processor)
            if running and running.virtual + self.cost(processor) > MOST_VIRTUAL:
                return False
        for processor in processors:
            self.charge_one(processor, tells=processor is processors[0])
        return True

    def charge_one(self, processor, tells):
        running, cost, passed = self.running(processor), self.cost(processor), self.time - processor.mark
        processor.mark = self.time
        if running:
            if tells and self.rng.random() < self.telling:
                cost = self.tell(running, cost)
            running.virtual += cost
            running.charged += cost
            running.ran += passed
        queued = self.who(b"wait", processor) + ([running] if running else [])
        if queued:
            processor.floor = max(processor.floor, min(task.virtual for task in queued))

    def tell(self, task, cost):
        """A told charge in place of an exact one: with it the task drifts to somewhere within the setting, often to a
        bound, or on by nothing; but no virtual runtime falls, or leaves the range."""
        low, high = max(-self.most_drift, task.drift - cost), self.most_drift
        high = min(high, task.drift + MOST_VIRTUAL - task.virtual - cost)
        near = task.drift + self.rng.choice((-1, 1)) * self.rng.choice((1, 1000, self.rng.randrange(1, 10**5)))
        drift = self.rng.choice((low, high, task.drift, near, near, -task.drift, self.rng.randint(low, high)))
        drift = min(max(drift, low), high)
        cost += drift - task.drift
        task.drift, self.told = drift, task
        self.need(DRIFT, abs(drift))
        return cost

    def changes(self, processor):
        """Now and then the nice value of a task is another from this event on, whoever stands there."""
        here = [task for task in self.tasks.values() if task.place and task.cpu == processor.number]
        if here and self.rng.random() < self.changing:
            self.changed = self.rng.choice(here)
            self.changed.nice = self.nice()

    # Lines.

    @staticmethod
    def written(time, unit):
        """A time of nine digits behind the point, or of six."""
        return b"%d.%09d" % divmod(time, 10**9) if unit == 1 else b"%d.%06d" % (time // 10**9, time % 10**9 // 1000)

    def line(self, cpu, text, claim=None):
        """An event, behind other lines now and then, with its told charge, its change of a nice value and its claim."""
        rng = self.rng
        while rng.random() < 0.06:
            self.lines.append(rng.choice((*OTHERS, self.head(cpu) + b"sched_stat_runtime: comm=a pid=1")) + b"\n")
        self.lines.append(self.head(cpu) + text)
        self.counts["events"] += 1
        for processor in self.processors:
            if processor.since is not None:
                self.need("--slack-ns", self.time - processor.since)
        if self.told:
            self.claims.append(b"charge %d %d %d" % (len(self.lines), self.told.pid, self.told.virtual))
            self.told = None
        if self.changed:
            self.claims.append(b"nice %d %d %d" % (len(self.lines), self.changed.pid, self.changed.nice))
            self.changed = None
        if claim:
            sort, task = claim
            self.claims.append(b"%s %d %d %d" % (sort, len(self.lines), task.pid, task.virtual))

    def head(self, cpu):
        rng = self.rng
        return b" %15s-%-7d %s[%03d] %s%s: " % (rng.choice(NAMES)[:15], rng.randrange(10**5), rng.choice(GROUPS), cpu,
                                                rng.choice(FLAGS), self.written(self.time, self.unit).rjust(12))

    def named(self, task):
        """A task in an event's text, by some name."""
        pid, prio = (task.pid, task.prio) if task else (0, self.rng.choice((120, 0, 140)))
        return pid, prio, self.rng.choice(NAMES)

    # Events.  Each answers whether it was possible; nothing is charged before that is clear.

    def switch(self):
        rng, processor = self.rng, self.rng.choice(self.processors)
        before, waiting = self.running(processor), self.who(b"wait", processor)
        if not (before or waiting) or not self.charge(processor):
            return False
        self.changes(processor)
        states, place = rng.choice(((STAYS, b"wait"), (STAYS, b"wait"), (SLEEPS, b"rest"), (ENDS, None)))
        stays = before and states is STAYS
        most = min(task.virtual for task in waiting + [before] * bool(stays)) + self.granularity if waiting else 0
        able = [task for task in waiting if task.virtual <= most]
        if stays and not able:
            states, place, stays = SLEEPS, b"rest", False
            able = [task for task in waiting if task.virtual <= min(it.virtual for it in waiting) + self.granularity]
        after = rng.choice(able) if able else None
        if before:
            before.place = place
            self.counts["deaths"] += place is None
        if after:
            self.need("--granularity-ns",
                      after.virtual - min(task.virtual for task in waiting + [before] * bool(stays)))
            after.place = b"run"
            after.picks += 1
        self.counts["switches"] += 1
        text = switched(self.named(before), rng.choice(states), self.named(after))
        self.line(processor.number, text, (b"at", before) if stays else None)
        self.note_idling(processor)
        return True

    def placed(self, task, low, high, event):
        """A task begins to wait, at a virtual runtime within its bounds, often at one of them."""
        task.virtual = self.rng.choice((low, high, self.rng.randint(low, high)))
        task.place = b"wait"
        self.wakes(task, event, (b"at", task))

    def wakes(self, task, event, claim=None):
        success = self.rng.choice((b"", b"", b" success=1"))
        self.line(self.rng.choice(self.processors).number, woken(self.named(task), task.cpu, event, success), claim)
        self.note_idling(self.processors[task.cpu])

    def wakeup(self):
        resting = self.who(b"rest")
        if not resting:
            return False
        task = self.rng.choice(resting)
        processor = self.processors[task.cpu]
        if not self.charge(processor):
            return False
        self.changes(processor)
        low, high = (max(task.virtual, bound) for bound in (processor.floor - self.credit, processor.floor))
        self.placed(task, low, high, b"sched_wakeup")
        self.need("--credit-ns", processor.floor - task.virtual)
        return True

    def wakeup_again(self):
        awake = self.who(b"wait") + self.who(b"run")
        if not awake:
            return False
        task = self.rng.choice(awake)
        if not self.charge(self.processors[task.cpu]):
            return False
        self.changes(self.processors[task.cpu])
        self.wakes(task, b"sched_wakeup")
        return True

    def birth(self):
        processor, ended = self.rng.choice(self.processors), self.who(None)
        fresh = self.rng.choice((MOST_PID, self.rng.randrange(1, MOST_PID + 1), self.rng.randrange(1, 300)))
        pid = self.rng.choice(ended).pid if ended and self.rng.random() < 0.7 else fresh
        task = self.tasks.get(pid)
        if (task and task.place) or not self.charge(processor):
            return False
        self.changes(processor)
        task = self.tasks.setdefault(pid, Task(pid, 0, 0, None, 0, False))
        task.nice, task.idle, task.cpu, task.drift = self.nice(), self.idle(), processor.number, 0
        self.counts["births"] += 1
        self.placed(task, processor.floor, min(processor.floor + self.debit, MOST_VIRTUAL), b"sched_wakeup_new")
        self.need("--debit-ns", task.virtual - processor.floor)
        self.names_idle(len(self.lines), task)
        return True

    def migration(self):
        able = self.who(b"wait") + self.who(b"rest")
        if not able or len(self.processors) == 1:
            return False
        task, destination = self.rng.choice(able), self.rng.choice(self.processors)
        origin = self.processors[task.cpu]
        too_far = abs(task.virtual + destination.floor - origin.floor) > MOST_VIRTUAL - MARGIN
        if origin is destination or too_far or not self.charge(origin, destination):
            return False
        self.changes(origin)
        task.virtual += destination.floor - origin.floor
        task.cpu, task.drift = destination.number, 0
        self.counts["migrations"] += 1
        self.line(self.rng.choice(self.processors).number, moved(self.named(task), origin.number, destination.number),
                  (b"at" if task.place == b"wait" else b"pass", task))
        self.note_idling(origin)
        self.note_idling(destination)
        return True

    def go_on(self):
        """Time passes, but no further than an idling processor allows; then something happens."""
        rng = self.rng
        step = rng.choice((0, 1, rng.randrange(1000), rng.randrange(10**5), rng.randrange(10**7)))
        step = min(10**14 if rng.random() < 0.005 else step, LAST_TIME - self.time)
        until = min([processor.since + self.slack for processor in self.processors if processor.since is not None],
                    default=self.time + step)
        self.time = min(self.time + step, until) // self.unit * self.unit
        return rng.choice(3 * (self.switch,) + 2 * (self.wakeup,) + (self.wakeup_again, self.birth, self.migration))()

    def report(self):
        """What the report has to say, tasks in the order of the companion and then of their births."""
        yield counted(**self.counts)
        for task in self.tasks.values():
            yield tally(task.pid, task.ran, task.charged, task.picks)

    def least(self):
        """What has to be told of the least settings: of the drift where the companion could tell charges."""
        return least(*list(self.needs.values())[:5 if self.version > 2 else 4])


def recording(rng):
    """A run of some events, with its report and the least settings."""
    machine = Machine(rng)
    for _ in range(rng.choice((3, 20, 40, 80, 160))):
        machine.go_on()
    options = () if machine.settings == STANDARD else options_of(machine.settings)
    companion = machine.beginning + machine.idles + machine.claims
    return Input(b"".join(machine.lines), b"".join(line + b"\n" for line in companion), options,
                 b"".join(machine.report()), machine.least())
