"""Columns of numbers as a page holds them, and the levels that it draws from afar."""

import base64
import sys
import zlib
from array import array

CHUNK = 1 << 14
# From afar a lane is drawn in so many buckets, of all lanes together, but between so many and so many of each; and in
# so many times as many from not quite so far.
BUCKETS, LEAST_BUCKETS, MOST_BUCKETS = 32768, 512, 2048
FINER = 8
# So many of the longest waits of a lane are drawn from afar as they are.
LONGEST = 40
# A page with no more stretches than this is drawn whole.
FEW = 30_000
# So many points of a measure are drawn from afar, of all lanes together, but at least so many of each.
PEAKS, LEAST_PEAKS, MOST_PEAKS = 8192, 128, 2048
# The text that has all columns which the page draws first.
FIRST = "first"
SUBLANES = 12


class Columns:
    """The texts of columns, which stand in the page by themselves: it opens those alone that it draws."""

    def __init__(self):
        self.texts = []
        self.first = bytearray()

    def put(self, values):
        """The name of the text that has these numbers, compressed. It begins with the kind of the array that they
        are."""
        kind, numbers = numbers_of(values)
        name = f"{kind}{len(self.texts)}"
        self.texts.append((name, text_of(numbers)))
        return name

    def put_first(self, values):
        """The same for a column that the page draws first. These are many and short, and stand in one text: the name
        says from which byte on, and how many numbers."""
        kind, numbers = numbers_of(values)
        self.first.extend(bytes(-len(self.first) % 8))
        name = f"{kind}@{len(self.first)}+{len(values)}"
        self.first.extend(numbers)
        return name

    def all_texts(self):
        return [*self.texts, (FIRST, text_of(bytes(self.first)))]


def numbers_of(values):
    """The kind of the array that numbers are, and its bytes, the least of each first."""
    kind = kind_for(values)
    numbers = array(kind, values)
    if sys.byteorder == "big":
        numbers.byteswap()
    return kind, numbers.tobytes()


def text_of(numbers):
    return base64.b64encode(zlib.compress(numbers, 3)).decode()


def kind_for(values):
    """The smallest kind of array for numbers; a browser has integers of 64 bits only one by one."""
    least, most = min(values), max(values)
    kinds = (("B", 0, 2**8), ("H", 0, 2**16), ("I", 0, 2**32), ("i", -2**31, 2**31), ("q", -2**63, 2**63))
    return next(kind for kind, low, high in kinds if low <= least and most < high)


def steps(values):
    """Each number less the one before it."""
    return [value - before for before, value in zip([0, *values], values)]


def packed(put, stretches, start, task_of, more=None):
    """Chunks of stretches, each with the times between which it lies."""
    chunks = []
    for at in range(0, len(stretches), CHUNK):
        part = stretches[at:at + CHUNK]
        chunk = {
            "count": len(part),
            "begin": part[0].begin - start,
            "end": max(one.end for one in part) - start,
            "begins": put(steps([one.begin - start for one in part])),
            "lengths": put([one.end - one.begin for one in part]),
            "before": put([one.before for one in part]),
            "tasks": put([task_of[one.pid] for one in part]),
            "first": put(steps([one.first for one in part])),
            "last": put(steps([one.last for one in part])),
        }
        if more is None:
            chunk["charges"] = put([one.after - one.before for one in part])
            chunk["from"] = put([one.lower for one in part])
            chunk["to"] = put([one.upper for one in part])
        else:
            chunk["rows"] = put(more[at:at + CHUNK])
        chunks.append(chunk)
    return chunks


def packed_points(put, points, start, task_of):
    chunks = []
    for at in range(0, len(points), CHUNK):
        part = points[at:at + CHUNK]
        chunks.append({
            "count": len(part),
            "begin": part[0].time - start,
            "end": part[-1].time - start,
            "times": put(steps([one.time - start for one in part])),
            "values": put([one.value for one in part]),
            "tasks": put([task_of[one.pid] for one in part]),
            "lines": put(steps([one.line for one in part])),
        })
    return chunks


def rows_of(waits):
    """In which row each wait is drawn: the first that is free; the last one has all that find none."""
    free, rows = [], []
    for wait in waits:
        row = next((row for row, end in enumerate(free) if end <= wait.begin), len(free))
        if row >= SUBLANES - 1:
            row = SUBLANES - 1
        if row == len(free):
            free.append(wait.end)
        else:
            free[row] = max(free[row], wait.end)
        rows.append(row)
    return rows


def level(put, lane, start, end, buckets, task_of):
    """Of each bucket who ran longest, what share of it somebody ran, and how many waited at most."""
    width = max(1, end - start) / buckets
    busy, longest, whose = [0.0] * buckets, [0.0] * buckets, [0] * buckets
    for run in lane.runs:
        first = min(buckets - 1, int((run.begin - start) / width))
        last = min(buckets - 1, int((run.end - start) / width))
        for bucket in range(first, last + 1):
            begin = start + bucket * width
            share = min(run.end, begin + width) - max(run.begin, begin)
            busy[bucket] += share
            if share > longest[bucket]:
                longest[bucket], whose[bucket] = share, task_of[run.pid]
    return {
        "buckets": buckets,
        "busy": put([min(255, int(255 * share / width)) for share in busy]),
        "tasks": put(whose),
        "waiting": put(most_waiting(lane.waits, start, width, buckets)),
    }


def most_waiting(waits, start, width, buckets):
    """How many waited at most in each bucket."""
    most, now = [0] * buckets, 0
    changes = sorted([(one.begin, 1) for one in waits] + [(one.end, -1) for one in waits])
    reached = 0
    for time, change in changes:
        bucket = min(buckets - 1, int((time - start) / width))
        for one in range(reached, bucket + 1):
            most[one] = max(most[one], now)
        reached, now = bucket, now + change
        most[bucket] = max(most[bucket], now)
    return [min(65535, count) for count in most]


def greatest(points, start, end, buckets):
    """The greatest point of each bucket, where it has one."""
    width = max(1, end - start) / buckets
    best = {}
    for point in points:
        bucket = min(buckets - 1, int((point.time - start) / width))
        if bucket not in best or point.value > best[bucket].value:
            best[bucket] = point
    return [best[bucket] for bucket in sorted(best)]


def are_few(lanes):
    """Whether lanes have so few stretches that they are drawn whole."""
    return sum(len(lane.runs) + len(lane.waits) for lane in lanes) <= FEW


def sizes_from_afar(lanes):
    """How many buckets each of these lanes has from afar, and how many for the points of a measure."""
    return (min(MOST_BUCKETS, max(LEAST_BUCKETS, BUCKETS // len(lanes))),
            min(MOST_PEAKS, max(LEAST_PEAKS, PEAKS // len(lanes))))


def packed_lane(columns, lane, start, end, task_of, sizes):
    """A lane as the page has it: whole, and, where there are sizes for that, from afar."""
    put, first = columns.put, columns.put_first
    rows = rows_of(lane.waits)
    longest = sorted(range(len(rows)), key=lambda one: lane.waits[one].begin - lane.waits[one].end)[:LONGEST]
    longest.sort()
    return {
        "cpu": lane.cpu,
        "rows": max(rows, default=-1) + 1,
        "runs": packed(put, lane.runs, start, task_of),
        "waits": packed(put, lane.waits, start, task_of, rows),
        "longest": packed(first, [lane.waits[one] for one in longest], start, task_of, [rows[one] for one in longest]),
        "levels": [level(first, lane, start, end, sizes[0], task_of),
                   level(put, lane, start, end, sizes[0] * FINER, task_of)] if sizes else [],
        "points": {name: packed_points(put, points, start, task_of) for name, points in lane.points.items()},
        "peaks": {name: packed_points(first, greatest(points, start, end, sizes[1]), start, task_of)
                  for name, points in lane.points.items()} if sizes else {},
    }
