"""The least settings at which a recording is a run: what both auditors tell of them, held against the rules where these are
known beforehand, and against the program's own verdicts at these settings and one below each."""

import re

from lib.words import MOST_SETTING, ONE_BELOW, OPTIONS, OVER, PLACE, options_of, without_places

LEAST = "--least"
# Only that of the granularity, the first, names who was passed over; each other has an empty group there.
LINES = [rb"least %s (?:0|([1-9]\d*)%s)\n" % (option[2:].encode(), PLACE + (rb"()" if number else OVER))
         for number, option in enumerate(OPTIONS)]
# One line for each setting; for the last one, the drift, only of a companion that could tell charges.
TOLD = re.compile(rb"%s(?:%s)?" % (rb"".join(LINES[:-1]), LINES[-1]))


def is_asked(number):
    """Whether an input's least settings are asked for too: those of ten inputs of eighty, so of each sort alike."""
    return number // 10 % 8 == 0


def places_of(told):
    """Of each least setting that is told the figure, and the line, the processor and the task of its place."""
    parts = [part.decode() if part else None for part in told.groups()]
    for figure, line, _, cpu, pid, _ in zip(*[iter(parts)] * 6):
        yield int(figure or 0), ["line", line, "cpu", cpu, "pid", pid]


def at_least(answer, told, report, below):
    """What is wrong with the program's verdicts at the least settings that it told, and one below; the report of a run may
    be known.  `answer` gives the program's answer with options, and `below` counts which settings were above 0."""
    least, places = zip(*places_of(told))
    words = options_of(least)
    given = answer(words)
    if given[0] != 0 or given[1].split(b"\n")[0] != b"run" or report not in (None, given[1]):
        yield f"at {' '.join(words)}, the least that it told, the program answers {given!r}"
    for index, (kind, place) in enumerate(zip(ONE_BELOW, places)):
        if least[index]:
            below[kind] += 1
            words = options_of((*least[:index], least[index] - 1, *least[index + 1:]))
            given = answer(words)
            if given[0] != 1 or given[1].decode().split()[1:8] != [*place, f"{kind}:"]:
                yield f"at {' '.join(words)}, one below the least, needed at {' '.join(place)}, the program answers {given!r}"


def wrong_least(answers, answer, given, below):
    """What is wrong with what is told of an input's least settings.  `answers` gives both answers with options, and the
    others are as above."""
    told, other = answers((LEAST,))
    if told != other or told[0] not in (0, 1, 2) or given.least not in (None, without_places(told[1])):
        known = "" if given.least is None else f", and the rules {given.least!r}"
        yield f"with {LEAST} the program answers {told!r}, the plain auditor {other!r}{known}"
    elif told[0] == 0:
        settings = TOLD.fullmatch(told[1])
        if settings:
            yield from at_least(answer, settings, None if LEAST in given.options else given.report, below)
        else:
            yield f"with {LEAST} both answer {told!r}"
    elif told[0] == 1:
        greatest = answer(options_of([MOST_SETTING] * len(OPTIONS)))
        if greatest != told:
            yield f"with {LEAST} the program answers {told!r}, and {greatest!r} at the greatest settings"
