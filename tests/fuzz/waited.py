"""How long tasks waited in inputs of the fuzzer: what both auditors tell of it, held against a walk over the text that
knows no virtual runtimes."""

from waits.stretches import waits_in

WAITS = "--waits"


def is_waited(number):
    """One input in eight, whatever it is: ten in a row of eighty."""
    return number // 10 % 8 == 5


def wrong_waits(answer, answers, given):
    """What is wrong with both answers that were asked for with the waits, beside that of the program without."""
    status, report, errors = answer
    more = waits_in(given.trace, given.companion) if status == 0 else b""
    if status == 5 or all(waited == (status, report + more, errors) for waited in answers):
        return []
    told, other = answers
    return [f"with {WAITS} the program answers {told!r}, the plain auditor {other!r}, and the text has {more!r}"]
