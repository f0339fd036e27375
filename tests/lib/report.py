"""What a script of the tests is called with, and what it tells in the end: how many results passed, how many failed."""

import os
import subprocess
import sys
import tempfile
from pathlib import Path

TOP = Path(__file__).resolve().parent.parent.parent
# How long one call may take, on a slow machine beside other work.
SECONDS = 300


def words_of(doc, least, most=None):
    """The words that a script is called with.  Where there are fewer or more than that, the first line of its own text
    says which it wants, and it ends."""
    words = sys.argv[1:]
    if not least <= len(words) <= (least if most is None else most):
        print(doc.splitlines()[0], file=sys.stderr)
        sys.exit(2)
    return words


def tracked_in(folder):
    """The tracked files of a tree, by their names there."""
    names = subprocess.run(["git", "-C", folder, "ls-files", "-z"], stdout=subprocess.PIPE, check=True).stdout.decode()
    return [name for name in names.split("\0") if name and (Path(folder) / name).is_file()]


def without_toolchain():
    """The environment without the toolchain's command rt on its path."""
    paths = os.environ["PATH"].split(os.pathsep)
    return {**os.environ, "PATH": os.pathsep.join(path for path in paths if not (Path(path) / "rt").exists())}


def answer_of(program, *words, seconds=SECONDS, **settings):
    """How a call ends: its status, and what it wrote to standard output and to standard error."""
    done = subprocess.run([program, *words], stdin=subprocess.DEVNULL, capture_output=True, timeout=seconds, **settings)
    return done.returncode, done.stdout, done.stderr


def without_hints(errors):
    """What a command writes to standard error, but for what it says of likely mistakes."""
    return b"".join(line for line in errors.splitlines(keepends=True) if not line.startswith(b"hint: "))


class Report:
    """How many results passed and failed, with a folder for their texts, which goes with it."""

    def __init__(self):
        self.passed = self.failed = 0
        self.kept = tempfile.TemporaryDirectory()
        self.room = Path(self.kept.name)

    def result(self, wrong):
        """One result: it passes where no line says what is wrong with it; each such line is printed."""
        wrong = list(wrong)
        for line in wrong:
            print(line)
        self.passed += not wrong
        self.failed += bool(wrong)

    def compare(self, about, expected, given):
        self.result([] if given == expected else [f"{about}: expected {expected!r}, got {given!r}"])

    def end(self):
        """Tells both; a script that tried nothing failed."""
        self.kept.cleanup()
        self.failed += not self.passed + self.failed
        print(f"{self.passed} passed, {self.failed} failed")
        sys.exit(1 if self.failed else 0)
