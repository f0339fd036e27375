"""The auditor's call: its report, its explanation and the states at each event."""

import json
import re
import subprocess
import sys
import tempfile
from decimal import Decimal
from pathlib import Path

TOP = Path(__file__).resolve().parent.parent.parent.parent
SETTINGS = {"granularity": 10**6, "credit": 3 * 10**6, "debit": 3 * 10**6, "slack": 10**5, "drift": 0}
AMOUNT = re.compile(r"\+?(\d+(?:\.\d+)?)(|ns|us|ms|s|e\d+)")
UNITS = {"": 0, "ns": 0, "us": 3, "ms": 6, "s": 9}
# The tasks of an event, each by its name and its pid. A name may hold keys, so all fields are read, to the line's end.
NAMES = re.compile(
    rb": sched_(?:switch: prev_comm=(.{0,15}) prev_pid=(\d+) prev_prio=-?\d+ prev_state=\S+"
    rb" ==> next_comm=(.{0,15}) next_pid=(\d+) next_prio=-?\d+"
    rb"|(?:wakeup|wakeup_new|migrate_task): comm=(.{0,15}) pid=(\d+) prio=-?\d+(?: success=\d+)?"
    rb"(?: [a-z]+_cpu=\d+){1,2})\n?$")


class Audit:
    """What the auditor says of a recording at settings, which are words of its command line."""

    def __init__(self, program, settings, trace, companion):
        with tempfile.TemporaryDirectory() as room:
            states = Path(room) / "states"
            done = subprocess.run([program, "--summary", "--explain", "--states", states, *settings, trace, companion],
                                  stdin=subprocess.DEVNULL, stdout=subprocess.PIPE)
            if done.returncode not in (0, 1):
                sys.stderr.buffer.write(done.stdout)
                sys.exit(done.returncode)
            self.report = done.stdout.decode(errors="replace").splitlines()
            with open(states, "rb") as lines:
                self.states = [json.loads(line) for line in lines]
        self.names = names_in(trace)
        self.settings = settings_of(settings)


def names_in(trace):
    """The last name that the trace has of each pid."""
    names = {0: "idle"}
    with open(trace, "rb") as lines:
        for line in lines:
            match = NAMES.search(line) if b": sched_" in line else None
            for name, pid in pairs_of(match.groups()) if match else ():
                if pid is not None:
                    # Python reads no number of more than 4300 digits.
                    names[int(pid.lstrip(b"0") or b"0")] = name.decode(errors="replace")
    return names


def pairs_of(words):
    return zip(words[::2], words[1::2])


def settings_of(words):
    """The settings of a command line, in nanoseconds."""
    settings = dict(SETTINGS)
    pairs = " ".join(words).replace("=", " ").split()
    for word, value in zip(pairs, pairs[1:]):
        name = word.removeprefix("--").removesuffix("-ns")
        if name in settings:
            settings[name] = nanoseconds_of(value)
    return settings


def nanoseconds_of(word):
    """The amount that a word says, which the auditor has taken: a decimal number and its unit."""
    number, unit = AMOUNT.fullmatch(word).groups()
    return int(Decimal(number).scaleb(UNITS[unit] if unit in UNITS else int(unit.removeprefix("e"))))
