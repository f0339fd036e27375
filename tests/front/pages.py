"""What stands in a page of Markdown: its links, the anchors of its headings, and its fenced blocks."""

import re
from typing import NamedTuple

FENCE = re.compile(r"( *)(```+)(\w*) *$")
CODE = re.compile(r"(`+).*?\1", re.DOTALL)
LINK = re.compile(r"\]\(\s*([^\s()]+)[^()]*\)|^ {0,3}\[[^\]]+\]: *(\S+)", re.MULTILINE)
HEADING = re.compile(r"#{1,6} +(.*?)[ #]*$", re.MULTILINE)
LABEL = re.compile(r"\[([^\]]*)\]\([^)]*\)")


class Block(NamedTuple):
    """A fenced block: the number of its first line, the word behind its fence, and its lines."""

    line: int
    kind: str
    lines: list


class Page:
    """A page by its name, which is its path from the top of the tree."""

    def __init__(self, name, text):
        self.name, self.blocks = name, []
        prose, block = [], None
        for number, line in enumerate(text.splitlines(), 1):
            fence = FENCE.match(line)
            if block and fence and fence.group(2) == ends and not fence.group(3):
                block = None
            elif block:
                block.lines.append(line[len(indent):] if line.startswith(indent) else line.lstrip())
            elif fence:
                indent, ends, kind = fence.groups()
                block = Block(number + 1, kind, [])
                self.blocks.append(block)
            else:
                prose.append(line)
        self.prose = "\n".join(prose)

    def links(self):
        """Where each link leads, as the page has it."""
        return [one or other for one, other in LINK.findall(CODE.sub("", self.prose))]

    def anchors(self):
        """Those of its headings: in small letters, without signs, with a dash for each blank; of those that are alike
        each but the first has a number."""
        found = []
        for heading in HEADING.findall(self.prose):
            words = LABEL.sub(r"\1", heading).lower()
            anchor = re.sub(r"[^\w -]", "", words).replace(" ", "-")
            count = found.count(anchor)
            found.append(anchor)
            yield f"{anchor}-{count}" if count else anchor
