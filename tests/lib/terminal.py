"""What a command says where it writes to a terminal."""

import os
import pty
import subprocess
import termios

from lib.calls import SECONDS


def on_terminal(words, environment, output):
    """What is written to a terminal, as the writer wrote it: by standard output, or else by standard error."""
    ours, theirs = pty.openpty()
    settings = termios.tcgetattr(theirs)
    settings[1] &= ~termios.OPOST
    termios.tcsetattr(theirs, termios.TCSANOW, settings)
    ends = {"stdout": theirs, "stderr": subprocess.DEVNULL} if output else {
        "stdout": subprocess.DEVNULL, "stderr": theirs}
    with subprocess.Popen(words, stdin=subprocess.DEVNULL, env=environment, **ends) as running:
        os.close(theirs)
        said = b""
        try:
            while part := os.read(ours, 65536):
                said += part
        except OSError:
            pass
        running.wait(SECONDS)
    os.close(ours)
    return said
