"""Edits of a trace, its companion and the options: by bytes, by lines and by fields.  Some of them keep what the texts
mean, or move a fault to where only the last tests see it; most break something."""

import re

from lib.words import MOST_PID, MOST_SETTING, OPTIONS
from recordings import DRIFT, Input

NUMBER = re.compile(rb"\d+")
TIME = re.compile(rb"(\d+)\.(\d{9}|\d{6})(?=: )")
CLAIM = re.compile(rb"(at|pass|nice|charge) (\d{1,10}) (\d+) (-?\d+)$")
NICE = re.compile(rb"^nice (\d{1,10}) (\d+) (-?\d+)$")
CHARGE = re.compile(rb"^charge (\d{1,10}) (\d+) (-?\d+)$")
IDLE = re.compile(rb"^idle (\d{1,10}) (\d+)$")
TASK = re.compile(rb"^task (\d+)(.*)$")
BIRTH = re.compile(rb"sched_wakeup_new: .* pid=(\d+) prio=")
VERSION = re.compile(rb"^cfs-companion ")
SWITCH = re.compile(rb"sched_switch: .* prev_pid=(\d+) prev_prio=")
PID = re.compile(rb"(?<= pid=)\d+|(?<=_pid=)\d+")

# At each limit of a number in the two formats, and one beyond.
LIMITS = [limit + beyond for beyond in (-1, 0, 1) for limit in (
    1, 63, 64, 100, 139, 140, 999, 65_535, MOST_PID, 2**31, 2**32 - 1, 2**53, MOST_SETTING, 2**62,
    2**63, 2**64, 10**40)]
BLOCKS = (2**16, 2**17)
BYTES = b"\n\n  \t\r\0\xff#:=.,;+-[]()>_0919aRSXZx"
STATES = (b"R", b"R+", b"S", b"D", b"X", b"Z", b"x", b"I", b"t", b"RX", b"S|K", b"X+", b"+", b"|", b"==>", b"", b"R S")
EVENTS = (b"sched_switch", b"sched_wakeup", b"sched_wakeup_new", b"sched_migrate_task", b"sched_waking",
          b"sched_switch:")
STARTS = (0, 1, 2, 3, -1, -20, -21, 19, 20, 100, 10**6, 2**62)
PLACES = (b"run", b"wait", b"rest", b"gone")
SORTS = (b"at", b"pass", b"nice", b"charge", b"idle", b"task", b"floor")
NICES = (-21, -20, -5, -1, 0, 0, 1, 5, 19, 20)
VERSIONS = (b"1", b"2", b"2", b"3", b"3", b"4", b"02", b"2 ", b"")
# In which order a line's told charge, change of a nice value and claim stand.
TURNS = {b"charge": 0, b"nice": 1, b"at": 2, b"pass": 2}
# How far a told charge is from a claim.
STRAYS = (0, 0, 1, -1, 999, -999, 10**6, -10**6)
KEYS = (b"pid=", b"prio=", b"success=1", b"")
WORDS = ((re.compile(rb"(?<=prev_state=)[^ ]*"), STATES), (re.compile(rb"sched_[a-z_]+"), EVENTS),
         (re.compile(rb"[a-z_]+="), KEYS), (re.compile(rb"\b(run|wait|rest)\b"), PLACES),
         (re.compile(rb"^(at|pass|nice|charge|idle)\b"), SORTS))
NAMES = (b"", b"a" * 15, b"a" * 16, b" next_pid=1", b" pid=1", b" prev_pid=0 prev", b"\xff" * 15, b" ==> next_comm=",
         b"x prio=120")
STRANGE = (b"", b"#", b"# tracer: nop", b"CPU:0 [LOST 12 EVENTS]", b"CPU:3 [LOST EVENTS]", b"CPU: [LOST EVENTS]",
           b"cgroup", b"cgroup /a", b"cfs-companion 1", b"cfs-companion 2", b"cfs-companion 3", b"nice 1 101 0",
           b"charge 1 101 0", b"idle 0 101", b"hello", b" ", b"\r", b"\0" * 20,
           b"            t101-101     [000] d..2.   100.004000: sched_stat_runtime: comm=t101 pid=101 runtime=1 [ns]")


class Draft:
    """The lines of both texts without their feeds, and the options, while they are edited.  Where `here` is a place in
    the trace, edits prefer its line and the claims for it: two things that are wrong at one line show which is told."""

    def __init__(self, source, here=None):
        self.trace, self.companion = source.trace.split(b"\n"), source.companion.split(b"\n")
        self.options, self.here = list(source.options), here

    def done(self):
        return Input(b"\n".join(self.trace), b"\n".join(self.companion), tuple(self.options))

    def text(self, rng):
        return self.trace if rng.random() < 0.6 else self.companion

    def claims(self):
        """Which lines of the companion are claims, changes of nice values or told charges, and what they say."""
        return [(place, found) for place, found in enumerate(map(CLAIM.match, self.companion)) if found]

    def idles(self):
        """Which lines of the companion name a task of the idle policy, and what they say."""
        return [(place, found) for place, found in enumerate(map(IDLE.match, self.companion)) if found]

    def renumber(self, line, by):
        """What the companion says of the lines of the trace from one on goes with their events, by so many lines."""
        for place, claim in self.claims():
            if int(claim.group(2)) >= line:
                self.companion[place] = b"%s %d %s %s" % (claim.group(1), int(claim.group(2)) + by, *claim.group(3, 4))
        for place, idle in self.idles():
            if int(idle.group(1)) >= line:
                self.companion[place] = b"idle %d %s" % (int(idle.group(1)) + by, idle.group(2))

    def prefers(self, lines, place):
        """Whether a line of one of the texts is the one that edits prefer, or its claim."""
        if lines is self.trace:
            return place == self.here
        claim = self.here is not None and CLAIM.match(lines[place])
        return bool(claim) and int(claim.group(2)) == self.here + 1

    def call_it(self, version):
        """Writes another version into the companion's first line."""
        place = next((place for place, line in enumerate(self.companion) if VERSION.match(line)), None)
        if place is not None:
            self.companion[place] = b"cfs-companion " + version

    def raise_to(self, version):
        """The companion's version becomes this one, or stays a later one."""
        if not any(line[:15] == b"cfs-companion %d" % later for line in self.companion for later in range(version, 4)):
            self.call_it(b"%d" % version)

    def insert(self, turn, line, text):
        """Puts what is said of a line of the trace where its turn is among the claims, changes and told charges."""
        at = next((place for place, claim in self.claims()
                   if (int(claim.group(2)), TURNS[claim.group(1)]) >= (line, turn)),
                  max(len(self.companion) - 1, 0))
        self.companion.insert(at, text)

    def leave_out(self, option):
        """An option isn't given any longer, where it stands in a word of its own."""
        if option in self.options:
            at = self.options.index(option)
            del self.options[at:at + 2]

    def drop(self, goes):
        """Drops what the companion says of lines of the trace that go."""
        places = {place for place, claim in self.claims() if goes(int(claim.group(2)))}
        places |= {place for place, idle in self.idles() if goes(int(idle.group(1)))}
        self.companion = [text for place, text in enumerate(self.companion) if place not in places]


def put(text, span, new):
    return text[:span[0]] + new + text[span[1]:]


def place_in(rng, lines):
    """A line that isn't the empty one behind the last feed."""
    return rng.randrange(max(len(lines) - 1, 1))


def a_line_with(rng, draft, lines, pattern):
    """The place of a line in which something stands, and one of the finds; None where there is none."""
    places = [place for place, line in enumerate(lines) if pattern.search(line)]
    if not places:
        return None
    place = rng.choice([place for place in places if draft.prefers(lines, place)] or places)
    return place, rng.choice(list(pattern.finditer(lines[place])))


# By bytes.

def bytes_changed(rng, draft):
    lines = draft.text(rng)
    text = b"\n".join(lines)
    at, count = rng.randrange(len(text) + 1), rng.choice((1, 1, 1, 2, 8))
    new = rng.choice((b"", bytes(rng.choices(BYTES, k=count)), bytes(rng.choices(range(256), k=count)),
                      text[at:at + count] * 2))
    lines[:] = put(text, (at, at + rng.choice((0, count))), new).split(b"\n")


def bytes_swapped(rng, draft):
    lines = draft.text(rng)
    place = place_in(rng, lines)
    line = lines[place]
    at = rng.randrange(len(line) + 1)
    lines[place] = line[:at] + line[at:at + 2][::-1] + line[at + 2:]


def text_cut(rng, draft):
    lines = draft.text(rng)
    text = b"\n".join(lines)
    lines[:] = text[:rng.randrange(len(text) + 1)].split(b"\n")


# By lines.  Where a line of the trace comes or goes, the claims behind it go with their events, or don't.

def line_added(rng, draft):
    lines, what = draft.text(rng), rng.random()
    at = rng.randrange(len(lines))
    line = rng.choice(STRANGE) if what < 0.4 else lines[rng.randrange(len(lines))]
    lines.insert(at, line)
    if lines is draft.trace and rng.random() < 0.8:
        draft.renumber(at + 1, 1)


def comment_added(rng, draft):
    """The texts still mean the same, but for the lines' numbers."""
    at = rng.randrange(len(draft.trace))
    draft.trace.insert(at, b"#" * rng.choice((0, 1, 70)))
    draft.renumber(at + 1, 1)
    draft.companion.insert(rng.randrange(len(draft.companion)), b"# at 1 101 0")


def block_added(rng, draft):
    """The same by a comment that is so long that a block of bytes, as files are read, ends within one of the lines."""
    lines = draft.text(rng)
    length = sum(map(len, lines)) + len(lines)
    lines.insert(0, b"#" * max(rng.choice(BLOCKS) - rng.randrange(length + 1), 0))
    if lines is draft.trace:
        draft.renumber(1, 1)


def line_dropped(rng, draft):
    lines = draft.text(rng)
    at = place_in(rng, lines)
    del lines[at]
    if lines is draft.trace and rng.random() < 0.8:
        draft.drop(lambda line: line == at + 1)
        draft.renumber(at + 1, -1)
    lines[:] = lines or [b""]


def line_moved(rng, draft):
    lines = draft.text(rng)
    line = lines.pop(place_in(rng, lines))
    lines.insert(rng.randrange(len(lines) + 1), line)


def lines_swapped(rng, draft):
    lines = draft.text(rng)
    if len(lines) > 2:
        at = rng.randrange(len(lines) - 2)
        lines[at:at + 2] = lines[at + 1], lines[at]


def trace_ended(rng, draft):
    """The first events alone, with what the companion says of them: a run's beginning is a run."""
    at = rng.randrange(len(draft.trace))
    draft.trace[at:] = [b""]
    draft.drop(lambda line: line > at)


def carriage_returns(rng, draft):
    lines = draft.text(rng)
    for place in ([place_in(rng, lines)] if rng.random() < 0.5 else range(len(lines))):
        lines[place] += b"\r"


# By fields.

def number_changed(rng, draft):
    lines = draft.text(rng)
    found = a_line_with(rng, draft, lines, NUMBER)
    if found:
        place, number = found
        value, what = int(number.group()), rng.random()
        new = b"%d" % (value + rng.choice((-1, 1)) if what < 0.5 else
                       rng.choice(LIMITS) if what < 0.9 else value * 1000)
        lines[place] = put(lines[place], number.span(), new)


def zeros_in_front(rng, draft):
    lines = draft.text(rng)
    found = a_line_with(rng, draft, lines, NUMBER)
    if found:
        place, number = found
        front = rng.choice((b"0", b"-", b"+", b"0" * rng.randrange(2, 10), b"0" * 40))
        lines[place] = put(lines[place], number.span(), front + number.group())


def number_from_elsewhere(rng, draft):
    """A number of one line, or of two, for another: of the same line it makes two fields equal."""
    lines = draft.text(rng)
    to = a_line_with(rng, draft, lines, NUMBER)
    if to:
        place, number = to
        of_line = list(NUMBER.finditer(lines[place]))
        other = rng.choice(of_line) if rng.random() < 0.5 else NUMBER.search(rng.choice(lines)) or of_line[0]
        lines[place] = put(lines[place], number.span(), other.group())


def pid_changed(rng, draft):
    """Another task of the recording in an event, often of those just before, and mostly in its claim too."""
    found = a_line_with(rng, draft, draft.trace, PID)
    if not found:
        return
    place, pid = found
    near = draft.trace[max(place - 3, 0):place] if rng.random() < 0.5 else draft.trace
    is_near = rng.random() < 0.9
    others = PID.findall(rng.choice(near or draft.trace)) if is_near else [b"%d" % rng.randrange(1, MOST_PID)]
    new = rng.choice(others or [pid.group()])
    draft.trace[place] = put(draft.trace[place], pid.span(), new)
    for at, claim in draft.claims():
        if int(claim.group(2)) == place + 1 and claim.group(3) == pid.group() and rng.random() < 0.8:
            draft.companion[at] = put(draft.companion[at], claim.span(3), new)


def time_turned(rng, draft):
    """A time is that of another line, or a little before or after it."""
    found = a_line_with(rng, draft, draft.trace, TIME)
    if found:
        place, time = found
        parts = TIME.search(rng.choice(draft.trace)) or time
        unit = 10**9 if len(parts.group(2)) == 9 else 10**6
        value = max(int(parts.group(1)) * unit + int(parts.group(2)) + rng.choice((-1, 0, 1, 1000, 10**5)), 0)
        new = b"%d.%0*d" % (value // unit, len(parts.group(2)), value % unit)
        draft.trace[place] = put(draft.trace[place], time.span(), new)


def later(rng, draft):
    """All events from one line on come later: who runs is charged for longer, and who idles idles for longer."""
    by, first = rng.choice((1, 1000, 10**5, 10**5 + 1000, 10**7, 10**12)), rng.randrange(len(draft.trace))
    for place in range(first, len(draft.trace)):
        time = TIME.search(draft.trace[place])
        if time:
            value = int(time.group(1)) * 10**9 + int(time.group(2).ljust(9, b"0")) + by
            draft.trace[place] = put(draft.trace[place], time.span(), b"%d.%09d" % divmod(value, 10**9))


def nanoseconds(rng, draft):
    """Times of six digits get nine, which say the same."""
    for place, line in enumerate(draft.trace):
        if rng.random() < 0.5:
            draft.trace[place] = TIME.sub(lambda time: time.group(1) + b"." + time.group(2).ljust(9, b"0"), line)


def word_changed(rng, draft):
    """A state, an event, a key, a place or a sort for another of its kind."""
    pattern, words = rng.choice(WORDS)
    lines = draft.companion if words in (PLACES, SORTS) else draft.trace
    found = a_line_with(rng, draft, lines, pattern)
    if found:
        lines[found[0]] = put(lines[found[0]], found[1].span(), rng.choice(words))


def name_changed(rng, draft):
    found = a_line_with(rng, draft, draft.trace, re.compile(rb"(?<=comm=).*?(?= (?:prev_|next_|)pid=)"))
    if found:
        place, name = found
        draft.trace[place] = put(draft.trace[place], name.span(), rng.choice((*NAMES, name.group()[::-1])))


def birth_for_a_wakeup(rng, draft):
    """A wakeup that is called a birth, or the other way round."""
    found = a_line_with(rng, draft, draft.trace, re.compile(rb"sched_wakeup(_new)?(?=: )"))
    if found:
        place, event = found
        draft.trace[place] = put(draft.trace[place], event.span(),
                                 b"sched_wakeup" + (b"" if event.group(1) else b"_new"))


def claim_changed(rng, draft):
    """A claim that is off by one or by a bound, or of the other sort, or gone; or one more."""
    claims, what = draft.claims(), rng.random()
    if what < 0.15 or not claims:
        line = rng.randrange(1, len(draft.trace) + 1) if draft.here is None else draft.here + 1
        new = b"%s %d %d %d" % (rng.choice(SORTS[:2]), line, rng.randrange(1, 200), rng.choice((0, rng.choice(LIMITS))))
        at = next((place for place, claim in claims if int(claim.group(2)) > line), max(len(draft.companion) - 1, 0))
        draft.companion.insert(at, new)
        return
    place, claim = rng.choice([it for it in claims if draft.prefers(draft.companion, it[0])] or claims)
    sort, line, pid, value = claim.groups()
    if what < 0.3:
        del draft.companion[place]
        return
    if what < 0.4:
        sort = b"pass" if sort == b"at" else b"at"
    else:
        value = b"%d" % (int(value) + rng.choice((-1, 1, -1000, 1000, -10**6, 10**6, 3 * 10**6)))
    draft.companion[place] = b" ".join((sort, line, pid, value))


def nice_added(rng, draft):
    """One more change of a nice value, mostly of a task that its line's event names, before the line's claim or behind
    it."""
    line = rng.randrange(1, len(draft.trace) + 1) if draft.here is None else draft.here + 1
    events = draft.trace[line - 1:line] if rng.random() < 0.7 else draft.trace
    pids = PID.findall(rng.choice(events or draft.trace))
    draft.insert(rng.choice((0, 1, 1, 1, 1, 1, 1, 3)), line,
                 b"nice %d %s %d" % (line, rng.choice(pids or [b"101"]), rng.choice(NICES)))
    if rng.random() < 0.8:
        draft.raise_to(2)


def charge_added(rng, draft):
    """One more told charge, mostly of the task that a switch puts back, at the value of its claim or a little beside it;
    then the claim often says that too, and the drift is often allowed."""
    claims = [(place, claim) for place, claim in draft.claims() if claim.group(1) == b"at"]
    put_back = [it for it in claims if is_put_back(draft, it[1])]
    if not claims:
        return
    place, claim = rng.choice(put_back if put_back and rng.random() < 0.8 else claims)
    _, line, pid, value = claim.groups()
    stray, what = rng.choice(STRAYS), rng.random()
    told = int(value) + stray
    if what < 0.7:
        draft.companion[place] = b"at %s %s %d" % (line, pid, told)
    elif what < 0.8:
        pid = another_pid(rng, draft)
    if rng.random() < 0.8:
        draft.leave_out(DRIFT)
        draft.options += [DRIFT, str(abs(stray) + rng.choice((0, 0, 10**6)) - (rng.random() < 0.2 and stray != 0))]
    draft.insert(rng.choice((0, 0, 0, 0, 0, 0, 0, 3)), int(line), b"charge %s %s %d" % (line, pid, told))
    if rng.random() < 0.9:
        draft.raise_to(3)


def is_put_back(draft, claim):
    """Whether a claim is for the task that a switch puts back."""
    line = int(claim.group(2))
    found = SWITCH.search(draft.trace[line - 1]) if 0 < line <= len(draft.trace) else None
    return bool(found) and found.group(1) == claim.group(3)


def charge_changed(rng, draft):
    """A told charge on the line before or behind it, of another task, or at another value; or gone."""
    def turned(at, word):
        if at == 1 and rng.random() < 0.7:
            return another_pid(rng, draft)
        if at == 2 and rng.random() < 0.7:
            return b"%d" % (int(word) + rng.choice((-1000, 1000, -10**6, 10**6, 10**12, -10**12)))
        return one_off(rng, word)

    word_turned(rng, draft, CHARGE, b"charge", turned)


def another_pid(rng, draft):
    """A pid that some line of the trace names."""
    return rng.choice(PID.findall(rng.choice(draft.trace)) or [b"101"])


def one_off(rng, number):
    """The number before or behind one."""
    return b"%d" % (int(number) + rng.choice((-1, 1)))


def word_turned(rng, draft, pattern, name, turned):
    """A line of the companion with one of its words turned, or gone."""
    found = a_line_with(rng, draft, draft.companion, pattern)
    if not found:
        return
    place, line = found
    words = list(line.groups())
    at = rng.randrange(len(words) + 1)
    if at == len(words):
        del draft.companion[place]
        return
    words[at] = turned(at, words[at])
    draft.companion[place] = b" ".join([name, *words])


def nice_changed(rng, draft):
    """A change of a nice value on the line before or behind it, of another task, or to another value; or gone."""
    def turned(at, word):
        if at == 1:
            return another_pid(rng, draft)
        if at == 2 and rng.random() < 0.5:
            return b"%d" % rng.choice(NICES)
        return one_off(rng, word)

    word_turned(rng, draft, NICE, b"nice", turned)


def idle_added(rng, draft):
    """One more task of the idle policy: of the start, or born on a line; now and then one that isn't, or out of
    order."""
    births = [(place + 1, found.group(1)) for place, found in enumerate(map(BIRTH.search, draft.trace)) if found]
    tasks = [(0, found.group(1)) for found in map(TASK.match, draft.companion) if found]
    line, pid = rng.choice(births + tasks or [(0, b"101")])
    what = rng.random()
    if what < 0.15:
        pid = another_pid(rng, draft)
    elif what < 0.3:
        line = rng.choice((0, 1, line + 1, line - 1 if line else 0))
    behind = [place for place, idle in draft.idles() if (int(idle.group(1)), int(idle.group(2))) > (line, int(pid))]
    behind += [place for place, _ in draft.claims()] + [max(len(draft.companion) - 1, 0)]
    draft.companion.insert(behind[0] if rng.random() < 0.95 else place_in(rng, draft.companion),
                           b"idle %d %s" % (line, pid))
    if rng.random() < 0.9:
        draft.raise_to(2)


def idle_changed(rng, draft):
    """A name of a task of the idle policy that is for the line before or behind it, or for another task; or gone."""
    def turned(at, word):
        if at == 1 and rng.random() < 0.5:
            return another_pid(rng, draft)
        return one_off(rng, word) if int(word) else b"1"

    word_turned(rng, draft, IDLE, b"idle", turned)


def version_changed(rng, draft):
    """A companion of another version, or of one that there isn't."""
    draft.call_it(rng.choice(VERSIONS))


def idle_switched(rng, draft):
    """A switch from the idle task, or to it."""
    found = a_line_with(rng, draft, draft.trace, re.compile(rb"(?<=(?:prev|next)_pid=)\d+"))
    if found:
        draft.trace[found[0]] = put(draft.trace[found[0]], found[1].span(), b"0")


def task_named_again(rng, draft):
    """A task of the start twice, or a second one that runs where it does."""
    found = a_line_with(rng, draft, draft.companion, TASK)
    if found:
        place, task = found
        draft.companion.insert(place + 1, b"task %d%s" % (int(task.group(1)) + rng.randrange(2), task.group(2)))


def start_changed(rng, draft):
    """A floor, or a task of the start: another value, place, processor or nice; or a processor more or less."""
    found = a_line_with(rng, draft, draft.companion, re.compile(rb"^(floor|task|cpus|start) .*"))
    if found:
        place, line = found
        words = line.group().split(b" ")
        at = rng.randrange(1, len(words))
        new = rng.choice(PLACES) if words[at] in PLACES else b"%d" % rng.choice(STARTS)
        if rng.random() < 0.5 and NUMBER.fullmatch(words[at]):
            new = b"%d" % (int(words[at]) + rng.choice((-1, 1, 10**6, -10**6)))
        draft.companion[place] = b" ".join(words[:at] + [new] + words[at + 1:])


def option_changed(rng, draft):
    """An option with another value, or one more, or one beyond its limit, in one word or in two."""
    option = rng.choice(OPTIONS)
    draft.leave_out(option)
    value = str(rng.choice((0, 1, 999, 1000, 99_999, 100_000, 999_999, 10**6, 3 * 10**6, 10**9, MOST_SETTING)))
    if rng.random() < 0.05:
        value = rng.choice((str(MOST_SETTING + 1), "-1", "", "+5", "00", str(2**64), "1e3"))
    draft.options += [f"{option}={value}"] if rng.random() < 0.3 else [option, value]


EDITS = {
    bytes_changed: 1.5, bytes_swapped: 1, text_cut: 0.5,
    line_added: 2, comment_added: 1, block_added: 0.5, line_dropped: 2, line_moved: 1, lines_swapped: 1.5,
    trace_ended: 1,
    carriage_returns: 0.3,
    number_changed: 3, zeros_in_front: 1, number_from_elsewhere: 3, pid_changed: 4, time_turned: 1, later: 2,
    nanoseconds: 1,
    word_changed: 2, name_changed: 1, birth_for_a_wakeup: 1.5, claim_changed: 4, nice_added: 2, nice_changed: 2,
    charge_added: 2, charge_changed: 3, idle_added: 2, idle_changed: 2, version_changed: 0.4, idle_switched: 1,
    task_named_again: 0.5, start_changed: 2, option_changed: 2.5,
}


def edited(rng, source):
    """An input after one edit or a few."""
    draft = Draft(source, rng.randrange(source.trace.count(b"\n") + 1) if rng.random() < 0.4 else None)
    for edit in rng.choices(list(EDITS), list(EDITS.values()), k=rng.choice((1, 1, 1, 2, 2, 3, 5))):
        edit(rng, draft)
    return draft.done()
