"""Stretches and points in the order of time, from the states at each event."""

from collections import namedtuple

# Somebody runs: from when to when, in nanoseconds; whose it is; from which virtual runtime to which; and between which
# lines of the trace. A wait has the virtual runtime at which it waits, twice.
# A run also has how far that is above the processor's floor.
Stretch = namedtuple("Stretch", "begin end pid before after first last lower upper", defaults=(0, 0))
# At one event: when, how much, on which line and whose.
Point = namedtuple("Point", "time value line pid")
MEASURES = "lead", "under", "over", "idled", "drift"


class Lane:
    """One processor."""

    def __init__(self, cpu, start, floor):
        self.cpu, self.start, self.floor = cpu, start, floor
        self.runs, self.waits = [], []
        self.points = {name: [] for name in MEASURES}
        self.running = None
        self.waiting = {}
        self.pids = set()

    def stand(self, task):
        """A task as it stands at the start."""
        self.pids.add(task["pid"])
        if task["place"] == "run":
            self.running = [self.start, task["pid"], task["v"], task["v"], 0, self.floor, self.floor]
        elif task["place"] == "wait":
            self.waiting[task["pid"]] = self.start, task["v"], 0

    def step(self, state):
        """An event here."""
        time, line, pid = state["time"], state["line"], state["pid"]
        if pid:
            self.pids.add(pid)
        if "ran" in state:
            self.running[3], self.running[6] = state["ran"]["to"], state["floor"]
        if state["deed"] == "switch":
            self.switch(state, time, line)
        elif state.get("place") == "wait":
            self.waiting.setdefault(pid, (time, state["v"], line))
        elif state["deed"] == "leave":
            self.end_wait(pid, time, line)
        for name in MEASURES:
            if name in state:
                of = state["next"] if name == "lead" else state.get("ran", state)["pid"] if name == "drift" else pid
                self.points[name].append(Point(time, state[name], line, of))

    def switch(self, state, time, line):
        self.end_run(time, line)
        if state.get("place") == "wait":
            self.waiting[state["pid"]] = time, state["v"], line
        if state["next"]:
            self.end_wait(state["next"], time, line)
            self.running = [time, state["next"], state["next_v"], state["next_v"], line, state["floor"], state["floor"]]

    def end_run(self, time, line):
        if self.running:
            begin, pid, before, after, first, floor, until = self.running
            self.runs.append(Stretch(begin, time, pid, before, after, first, line, before - floor, after - until))
        self.running = None

    def end_wait(self, pid, time, line):
        if pid in self.waiting:
            begin, v, first = self.waiting.pop(pid)
            self.waits.append(Stretch(begin, time, pid, v, v, first, line))

    def close(self, time):
        """What goes on at the end ends on no line."""
        self.end_run(time, 0)
        for pid in list(self.waiting):
            self.end_wait(pid, time, 0)
        self.waits.sort()


def lanes_of(states):
    """The lanes, and the fault if there is one."""
    lanes, fault = [], None
    for state in states:
        if state["deed"] == "start":
            lanes.append(Lane(state["cpu"], state["time"], state["floor"]))
            for task in state["tasks"]:
                lanes[-1].stand(task)
        elif state["deed"] == "fault":
            fault = state
        else:
            lanes[-1].step(state)
    end = max([state["time"] for state in states])
    for lane in lanes:
        lane.close(end)
    return lanes, fault, end


def cut(lanes, begin, end):
    """What of the lanes lies between two times."""
    for lane in lanes:
        for kind in "runs", "waits":
            inside = [one for one in getattr(lane, kind) if one.end >= begin and one.begin <= end]
            setattr(lane, kind, [one._replace(begin=max(one.begin, begin), end=min(one.end, end)) for one in inside])
        for name, points in lane.points.items():
            lane.points[name] = [one for one in points if begin <= one.time <= end]


def times_of_lines(states, first, last):
    """The times of the first and the last event on these lines of the trace."""
    times = [state["time"] for state in states if first <= state["line"] <= last]
    return (min(times), max(times)) if times else None
