"""What `--explain` adds to the program's answer: nothing but lines for people behind the report."""

import re

EXPLAIN = "--explain"
# A line for people: all of it is printable.
TOLD = re.compile(rb"# [ -~]*")


def is_explained(number):
    """Whether an input is explained too: ten inputs of each eighty, so of each sort alike, and others than those whose
    least settings are asked for."""
    return number // 10 % 8 == 4


def without_usage(error):
    """What stands on standard error but for the usage, which repeats the options that were given."""
    return [line for line in error.split(b"\n") if not line.startswith(b"Usage: ")]


def wrong_explained(plain, explained):
    """What is wrong with an answer that is explained, beside the one that isn't: the report stays first, and the status
    and standard error are its own; behind a fault or a refusal stand lines of printable bytes that begin with `# `, and
    else nothing."""
    report, rest = explained[1][:len(plain[1])], explained[1][len(plain[1]):]
    lines = rest.split(b"\n")
    if plain[0] in (1, 2):
        is_told = len(lines) > 1 and lines.pop() == b"" and all(map(TOLD.fullmatch, lines))
    else:
        is_told = rest == b""
    told = explained[0], report, without_usage(explained[2])
    if told != (plain[0], plain[1], without_usage(plain[2])) or not is_told:
        yield f"with {EXPLAIN} the program answers {explained!r}, and without {plain!r}"
