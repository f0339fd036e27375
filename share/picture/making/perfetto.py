"""The same stretches and points as Trace Event JSON, which Perfetto's viewer and chrome://tracing open."""

import json

MEASURES = {"lead": "granularity", "under": "credit", "over": "debit", "idled": "slack", "drift": "drift"}


def event(kind, name, lane, time, start, **more):
    return {"ph": kind, "name": name, "ts": (time - start) / 1000, **more}


def named(kind, value, **ids):
    return {"ph": "M", "name": kind, "args": {"name": value}, **ids}


def events_of(lanes, names, fault, start):
    """The events: process 0 has who runs, a thread for each processor; process 1 + C who waits at processor C, a thread
    for each task, and that processor's counters."""
    yield named("process_name", "who runs", pid=0)
    for lane in lanes:
        yield named("thread_name", f"cpu {lane.cpu}", pid=0, tid=lane.cpu)
        yield named("process_name", f"who waits at cpu {lane.cpu}", pid=1 + lane.cpu)
        for pid in sorted({wait.pid for wait in lane.waits}):
            yield named("thread_name", called(names, pid), pid=1 + lane.cpu, tid=pid)
        for run in lane.runs:
            yield stretch(run, called(names, run.pid), start, pid=0, tid=lane.cpu)
        for wait in lane.waits:
            yield stretch(wait, "waits", start, pid=1 + lane.cpu, tid=wait.pid)
        for name, points in lane.points.items():
            for point in points:
                yield {"ph": "C", "name": f"{name} ({MEASURES[name]})", "ts": (point.time - start) / 1000,
                       "pid": 1 + lane.cpu, "args": {name: point.value}}
    if fault:
        yield {"ph": "i", "s": "g", "name": f"fault line {fault['line']} {fault['kind']}", "pid": 0,
               "tid": fault["cpu"], "ts": (fault["time"] - start) / 1000}


def called(names, pid):
    return f"{names.get(pid, '')} {pid}".strip()


def stretch(one, name, start, **ids):
    return {"ph": "X", "name": name, "ts": (one.begin - start) / 1000, "dur": (one.end - one.begin) / 1000,
            "args": {"line": one.first, "until line": one.last, "vruntime": one.before, "until": one.after}, **ids}


def write_events(path, lanes, names, fault, start):
    with open(path, "w") as out:
        out.write('{"displayTimeUnit":"ns","traceEvents":[\n')
        comma = ""
        for one in events_of(lanes, names, fault, start):
            out.write(comma + json.dumps(one, separators=(",", ":")))
            comma = ",\n"
        out.write("\n]}\n")
