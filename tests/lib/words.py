"""The words, the limits and the weights of the rules and formats, as the tests know them."""

import re

# The weights of nice -20 to 19, and that of a task of the idle policy, whatever its nice value.
WEIGHTS = (88761, 71755, 56483, 46273, 36291, 29154, 23254, 18705, 14949, 11916,
           9548, 7620, 6100, 4904, 3906, 3121, 2501, 1991, 1586, 1277,
           1024, 820, 655, 526, 423, 335, 272, 215, 172, 137,
           110, 87, 70, 56, 45, 36, 29, 23, 18, 15)
IDLE_WEIGHT = 3
MOST_PID = 4_194_304
MOST_SETTING = 10**12

# The settings in the order of the options, and the fault of a recording that gets one less than it needs of each.
SETTINGS = "granularity", "credit", "debit", "slack", "drift"
ONE_BELOW = "NotLeast", "WakeBounds", "ForkBounds", "IdleTooLong", "WrongCharge"

# Their defaults, in nanoseconds.
STANDARD = 1_000_000, 3_000_000, 3_000_000, 100_000, 0

OPTIONS = tuple(f"--{name}-ns" for name in SETTINGS)

# What is said of likely mistakes on standard error: of texts in the wrong order, of a trace without an event, and of a
# granularity that no CFS needs.
COMPANION_FIRST = b"hint: the trace is a companion: the trace is named first\n"
TRACE_SECOND = b"hint: the companion is a trace: the companion is named second\n"
NO_EVENT = b"hint: the trace has no event of the scheduler\n"
FAR = b"hint: a pick was %d ns above the least: the kernel is likely one of EEVDF\n"
NONE_SERVES = b"hint: no granularity below 100 ms mends this fault: the kernel is likely one of EEVDF\n"
OVERWRITTEN = b"hint: the trace misses events: its two numbers of entries differ, so the buffer was overwritten\n"

# The commands behind `trace-cmd report -N` and `perf script` that make a trace of what these print.
FROM_TRACE_CMD = r"sed -E '/^cpus=/d; s/: (sched_[a-z_]+): +/: \1: /'"
FROM_PERF = (
    r"LC_ALL=C sed -E 's/^(.{16}) +-?([0-9]+ +\[[0-9]+\] +[0-9.]+: ) *(sched:)?/\1-\2/; "
    r"s/(: sched_switch: )(.*):([0-9]+) \[([-0-9]+)\] ([^ ]+) ==> (.*):([0-9]+) \[([-0-9]+)\]$"
    r"/\1prev_comm=\2 prev_pid=\3 prev_prio=\4 prev_state=\5 ==> next_comm=\6 next_pid=\7 next_prio=\8/; "
    r"s/(: sched_wakeup[_new]*: )(.*):([0-9]+) \[([-0-9]+)\].* CPU:([0-9]+)$"
    r"/\1comm=\2 pid=\3 prio=\4 target_cpu=\5/'")
SWITCH = b"prev_comm=name prev_pid=101 prev_prio=120 prev_state=R+ ==> next_comm=name next_pid=102 next_prio=120\n"
# Texts of other shapes, as they begin, and what is said of each. Those that are printed are of one switch after 4 ms.
SHAPES = {
    "gzip": (b"\x1f\x8b\x08\0", "is compressed: `gzip -dc FILE` writes the text"),
    "bzip2": (b"BZh91AY&SY", "is compressed: `bzip2 -dc FILE` writes the text"),
    "xz": (b"\xfd7zXZ\0\0", "is compressed: `xz -dc FILE` writes the text"),
    "zstd": (b"\x28\xb5\x2f\xfd\0", "is compressed: `zstd -dc FILE` writes the text"),
    "trace.dat": (b"\x17\x08Dtracing6\0",
                  f"is trace-cmd's binary file: `trace-cmd report -N -i FILE | {FROM_TRACE_CMD}` writes the text"),
    "trace-cmd report": (
        b"cpus=1\n            name-1     [000] d..2.   100.004000: sched_switch:         " + SWITCH,
        f"looks like `trace-cmd report`: `trace-cmd report -N | {FROM_TRACE_CMD}` writes the text"),
    "perf.data": (b"PERFILE2h\0", f"is perf's binary file: `perf script -i FILE | {FROM_PERF}` writes the text"),
    "perf script": (b"            name     1 [000]   100.004000:       sched:sched_switch: " + SWITCH,
                    f"looks like `perf script`: `perf script | {FROM_PERF}` writes the text"),
}

KINDS = {
    "IdleTooLong": "idle beside a waiting task",
    "Range": "virtual runtime out of range",
    "WrongCharge": "charged beyond the drift",
    "MoveHome": "migration to its own processor",
    "SelfSwitch": "switch to the same task",
    "PrevNotRunning": "previous task is not the running one",
    "Strange": "task does not stand at this processor",
    "Already": "task stands at this processor already",
    "MoveRunning": "running task migrated",
    "WrongPrio": "printed prio is not the task's own",
    "ClaimMissing": "claim is missing",
    "ClaimExtra": "claim on an event that needs none",
    "ClaimPid": "claim names another task",
    "WrongPutBack": "put back at another value",
    "WakeBounds": "placed outside the wake bounds",
    "ForkBounds": "placed outside the fork bounds",
    "NextNotWaiting": "next task is not waiting here",
    "IdleBesideWaiting": "switch to idle beside a waiting task",
    "NotLeast": "next task is beyond the granularity",
    "TicketUnequal": "migration values do not agree",
    "BornTwice": "task born twice",
}
CAUSES = {
    "trace": "TooManyLines BadHead NumberRange LostEvents BadFields RealTime PrioRange IdleNamed TimeBack".split(),
    "companion": "Version Group BadLine Order NumberRange TwiceNamed TwiceRunning LineOrder NoTask Short".split(),
    "join": "CpuOutside StartLate ClaimNoEvent".split(),
}


def shapes(source):
    """Of each text of another shape its name, its bytes, and the hint where it is given as the trace or as the
    companion."""
    for name, (text, words) in SHAPES.items():
        yield name, text, f"hint: the {source} {words}\n".encode()


def options_of(settings):
    """The words that ask for these settings."""
    return tuple(word for option, value in zip(OPTIONS, settings) for word in (option, str(value)))


def counted(events, switches, births, deaths, migrations=0):
    """The head of a run's report."""
    return b"run\nevents %d\nswitches %d\nmigrations %d\nbirths %d\ndeaths %d\n" % (
        events, switches, migrations, births, deaths)


def tally(pid, ran, charged, picks):
    return b"task %d ran %d charged %d picks %d\n" % (pid, ran, charged, picks)


def fault(line, cpu, pid, kind):
    return f"fault line {line} cpu {cpu} pid {pid} {kind}: {KINDS[kind]}\n".encode()


# Where a figure of the least settings is needed first: line, time, processor and task; and of the granularity the task
# that was the least of those who waited.
PLACE = rb" line (\d+) time (\d+\.\d{9}) cpu (\d+) pid (\d+)"
OVER = rb" over (\d+)"


def least(*figures):
    """The least settings, in the order of the options; the last of them, the drift, where the companion could tell
    charges.  Each is a number, or one above 0 and its place: the line, the time, the processor and the task, and of the
    granularity the least of those who waited too."""
    return "".join(f"least {name}-ns {figure if isinstance(figure, int) else placed(*figure)}\n"
                   for name, figure in zip(SETTINGS, figures)).encode()


def placed(figure, line, time, cpu, pid, over=None):
    """A figure with its place."""
    return f"{figure} line {line} time {time} cpu {cpu} pid {pid}" + ("" if over is None else f" over {over}")


def without_places(report):
    """The least settings alone."""
    return re.sub(PLACE + rb"(?:%s)?\n" % OVER, rb"\n", report)
