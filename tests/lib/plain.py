"""The plain auditor of bench/plain."""

import shutil
import subprocess

from lib.report import TOP


def plain_auditor(room):
    """The auditor, built into a folder; none where there is no rustc."""
    if not shutil.which("rustc"):
        return None
    plain = room / "plain"
    subprocess.run(["rustc", "-O", "-C", "codegen-units=1", "--edition", "2021", "-o", plain,
                    TOP / "bench/plain/main.rs"], check=True)
    return plain
