"""The page: one text with all that it needs."""

import json
from collections import defaultdict
from pathlib import Path

from making.packing import Columns, are_few, packed_lane, sizes_from_afar

PLACE = Path(__file__).resolve().parent.parent


def tasks_of(lanes, names):
    """Of each pid its name, how long it ran and waited, what it was charged, how often it was picked, its longest wait
    and the greatest lead by which it was picked."""
    tasks = defaultdict(lambda: {"ran": 0, "charged": 0, "picks": 0, "waited": 0, "longest": 0, "lead": 0})
    for lane in lanes:
        for pid in lane.pids:
            tasks[pid]
        for run in lane.runs:
            task = tasks[run.pid]
            task["ran"] += run.end - run.begin
            task["charged"] += run.after - run.before
            task["picks"] += run.first > 0
        for wait in lane.waits:
            task = tasks[wait.pid]
            task["waited"] += wait.end - wait.begin
            task["longest"] = max(task["longest"], wait.end - wait.begin)
        for point in lane.points["lead"]:
            tasks[point.pid]["lead"] = max(tasks[point.pid]["lead"], point.value)
        for points in lane.points.values():
            for point in points:
                tasks[point.pid]
    return [{"pid": pid, "name": names.get(pid, ""), **tasks[pid]} for pid in sorted(tasks)]


def data_of(audit, lanes, fault, start, end):
    """All that the page shows, and the texts of its columns."""
    columns = Columns()
    tasks = tasks_of(lanes, audit.names)
    task_of = {task["pid"]: index for index, task in enumerate(tasks)}
    few = are_few(lanes)
    sizes = None if few else sizes_from_afar(lanes)
    data = {
        "report": audit.report,
        "settings": audit.settings,
        "start": str(start),
        "span": end - start,
        "fault": fault and {**fault, "time": fault["time"] - start},
        "tasks": tasks,
        "few": few,
        "lanes": [packed_lane(columns, lane, start, end, task_of, sizes) for lane in lanes],
    }
    return data, columns.all_texts()


def page_of(data, texts):
    """The page's text."""
    text = (PLACE / "page.html").read_text()
    # What begins with `<` could end the script in which it stands.
    numbers = json.dumps(data, separators=(",", ":")).replace("<", "\\u003c")
    columns = "".join(f'<script type="text/plain" id="{name}">{column}</script>\n' for name, column in texts)
    for mark, piece in (("<!-- columns -->\n", columns), ("/* style */", (PLACE / "style.css").read_text()),
                        ("/* script */", (PLACE / "script.js").read_text()), ("/* data */", numbers)):
        before, after = text.split(mark)
        text = before + piece + after
    return text
