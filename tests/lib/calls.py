"""How the tests call a program, and the short texts and answers that they share."""

import os
import resource
import signal
import subprocess
from pathlib import Path

from lib import made
from lib.report import SECONDS, Report, answer_of
from lib.words import counted, tally

# What the program says on standard error, and how it ends then.
NO_TRACE = 3, b"", b"sched_audit: cannot read the trace\n"
NO_COMPANION = 3, b"", b"sched_audit: cannot read the companion\n"
NO_REPORT = 3, b"", b"sched_audit: cannot write the report\n"
NO_MEMORY = 4, b"", b"sched_audit: out of memory\n"
NOT_TEXT = 5, b"", b"error: a word of the command line isn't UTF-8\n"
# Behind the name of a command that has to build its program, and can't without a toolchain.
NO_TOOLCHAIN = b": it isn't built yet, and rt, the command of the Rattle toolchain, isn't on the path; see README.md\n"

# One processor from 100 s on: task 101 runs, and 102 waits.
BEGINNING, SECOND_BEGINNING, THIRD_BEGINNING = (made.beginning(version=version) for version in (1, 2, 3))
COMPANION = BEGINNING + b"task 101 0 0 run 0\ntask 102 0 0 wait 0\n"


def answers(status, report):
    return status, report, b""


def not_built(command="sched_audit"):
    return 70, b"", command.encode() + NO_TOOLCHAIN


def clap_error(about, usage):
    """A fault of the command line, in clap's words."""
    return 5, b"", b"error: " + about + b"\n\n" + usage + b"For more information, try '--help'.\n"


def ran(events, switches, births, deaths, tallies):
    """Of a run: of each task its pid, how long it ran, what it was charged, and its picks."""
    return answers(0, counted(events, switches, births, deaths) + b"".join(tally(*task) for task in tallies))


# Of the one in which 101 runs for 4 ms, and then 102.
RUN = ran(1, 1, 0, 0, [(101, 4 * 10**6, 4 * 10**6, 0), (102, 0, 0, 1)])


def head(microseconds, cpu=0):
    """The beginning of a line, so long after the start."""
    return made.head(100 * 10**6 + microseconds, cpu)


def named(pid, prio=120):
    return pid, prio, b"name"


def wakeup(microseconds, pid, prio=120, cpu=0):
    return head(microseconds, cpu) + made.woken(named(pid, prio), cpu)


def birth(microseconds, pid):
    return head(microseconds) + made.woken(named(pid), 0, b"sched_wakeup_new")


def switch(microseconds, before, state, after, cpu=0, prio=120, next_prio=120):
    return head(microseconds, cpu) + made.switched(named(before, prio), state, named(after, next_prio))


def moved(microseconds, pid, orig, dest):
    return head(microseconds) + made.moved(named(pid), orig, dest)


def real_time_wakeup(microseconds):
    return wakeup(microseconds, 20, prio=0)


def write_turns(path, count, step, piece):
    """Writes a recording of so many events, one every 100 us, where two tasks take turns. At each line whose number is a
    multiple of the step stands what is made for its time instead."""
    with open(path, "wb") as out:
        for number in range(1, count + 1):
            one, other = (101, 102) if number % 2 else (102, 101)
            out.write(piece(number * 100) if number % step == 0 else switch(number * 100, one, b"R+", other))


def by_shell(line):
    """The words of a shell that does this and then becomes the program."""
    return "sh", "-c", f'{line} "$@"', "sh"


def at_most(count):
    """Lets a program write files of so many bytes, without a signal where it wants more."""
    def limit():
        signal.signal(signal.SIGXFSZ, signal.SIG_IGN)
        resource.setrlimit(resource.RLIMIT_FSIZE, (count, count))

    return limit


class Calls(Report):
    """The calls of one program, in a folder of their own."""

    def __init__(self, program):
        super().__init__()
        self.program = Path(program).resolve()

    def parts(self, *parts):
        """Goes through the parts of a script, and ends it."""
        for part in parts:
            part(self)
        self.end()

    def called(self, *words):
        """How one call of the program ends."""
        return answer_of(self.program, *words, cwd=self.room)

    def file(self, name, *pieces):
        """A file of these pieces, each of which may also be some that come one after another."""
        path = self.room / name
        with open(path, "wb") as out:
            for piece in pieces:
                out.writelines([piece] if isinstance(piece, bytes) else piece)
        return path

    def expect(self, about, expected, *words, by=(), program=None, seconds=SECONDS, **settings):
        """One call of the program or of another in its place, by a shell's words before it where there are some."""
        settings = {"stdin": subprocess.DEVNULL, "stdout": subprocess.PIPE, **settings}
        try:
            done = subprocess.run([*by, program or self.program, *words], cwd=self.room, stderr=subprocess.PIPE,
                                  timeout=seconds, **settings)
            self.answered(about, expected, (done.returncode, done.stdout or b"", done.stderr))
        except (OSError, subprocess.TimeoutExpired) as error:
            self.compare(about, expected, str(error))

    def answered(self, about, expected, given):
        """What a call answered is compared with what was expected."""
        self.compare(about, expected, given)

    def from_pipe(self, about, expected, *words, of):
        """One call whose standard input is a pipe that a command of the shell writes."""
        self.expect(about, expected, *words, stdin=None, by=by_shell(f"{of} |"))

    def to_full_device(self, about, expected, *words):
        with open("/dev/full", "wb") as full:
            self.expect(f"{about} to a full device", expected, *words, stdout=full)

    def to_no_end(self, about, expected, *words):
        """Three calls whose standard output can't be written."""
        self.to_full_device(about, expected, *words)
        self.expect(f"{about} to a closed output", expected, *words, by=by_shell("exec >&-;"))
        reader, writer = os.pipe()
        os.close(reader)
        self.expect(f"{about} to a pipe that nobody reads", expected, *words, stdout=writer)
        os.close(writer)

    def of_itself(self, trace, more, told, version):
        """Help and the version, whatever stands beside them: what is told, and the words of a whole call."""
        for words in (("--help",), ("-h",), ("--help", trace), (*more, "--help")):
            self.expect(f"help, {len(words)} words", answers(0, told), *words)
        for words in (("--version",), ("-V",), (trace, "--version")):
            self.expect(f"the version, {len(words)} words", answers(0, version), *words)

    def no_text(self):
        """A copy of the trace by a name that isn't UTF-8."""
        other = os.fsencode(self.room) + b"/caf\xe9"
        Path(os.fsdecode(other)).write_bytes((self.room / "trace").read_bytes())
        return other
