"""The worked rows and the examples: folders of a trace and a companion, with what is expected of them."""

from lib.report import TOP

ROWS = TOP / "tests/rows"


class Row:
    """A folder's two texts, the options of its `args`, one word a line, and the exit status of its `status`, where it has
    them; else there are no options, and the status is 0."""

    def __init__(self, folder):
        self.folder, self.name = folder, folder.name
        self.texts = self.trace, self.companion = folder / "trace", folder / "companion"
        self.args = tuple((self.read("args") or b"").decode().splitlines())
        self.status = int(self.read("status") or 0)

    def read(self, name):
        """A file of the folder, or None."""
        path = self.folder / name
        return path.read_bytes() if path.exists() else None


def rows(top=ROWS):
    """The rows below a folder."""
    return [Row(path.parent) for path in sorted(top.glob("**/companion"))]
