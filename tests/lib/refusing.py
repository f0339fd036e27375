"""Growths that are refused: refusing.c stands before the allocator of a program and refuses one, or all from one on."""

import os
import subprocess
from pathlib import Path

from lib.report import SECONDS, without_hints


class Refusing:
    """The allocator that refuses, built into a folder by the toolchain's own clang."""

    def __init__(self, room):
        page = subprocess.run(["rt", "doc"], stdout=subprocess.PIPE, check=True).stdout.decode().strip()
        tools, self.built = Path(page).parent / "toolchain/bin", room / "refusing.so"
        subprocess.run([tools / "clang", "-O2", "-fPIC", "-shared", "-nostdlib", f"-fuse-ld={tools / 'ld.lld'}",
                        Path(__file__).with_suffix(".c"), "-o", self.built], check=True)

    def answer(self, words, growth=0, on=False):
        """How a command ends where this growth is refused, and all behind it where that goes on: its status, standard
        output and standard error; and whether it came to that growth. Hints may be left out where memory is scarce."""
        ours, theirs = os.pipe()
        settings = {"LD_PRELOAD": str(self.built), "REFUSE_AT": str(growth), "REFUSE_TOLD": str(theirs)}
        if on:
            settings["REFUSE_ON"] = "1"
        try:
            done = subprocess.run(words, stdin=subprocess.DEVNULL, stdout=subprocess.PIPE, stderr=subprocess.PIPE,
                                  pass_fds=[theirs], env={**os.environ, **settings}, timeout=SECONDS)
        finally:
            os.close(theirs)
            came_to_it = os.read(ours, 1) != b""
            os.close(ours)
        return (done.returncode, done.stdout, without_hints(done.stderr)), came_to_it

    def answers(self, words, on):
        """How a command ends where its first growth is refused, then where its second is, and so on; and last where it
        didn't come to the growth that would have been."""
        growth, came_to_it = 1, True
        while came_to_it:
            given, came_to_it = self.answer(words, growth, on)
            yield given
            growth += 1
