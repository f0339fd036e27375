"""Lines of traces and companions, as the tests and the benchmark make them.  Times are in microseconds, and a task is its
pid, prio and name."""


def head(time, cpu=0, name=b"name", pid=1):
    """The beginning of an event's line."""
    return b"%16s-%-7d [%03d] d..2. %5d.%06d: " % (name, pid, cpu, *divmod(time, 10**6))


def keys(pid, prio, name, key=b""):
    return b"%scomm=%s %spid=%d %sprio=%d" % (key, name, key, pid, key, prio)


def switched(before, state, after):
    return b"sched_switch: %s prev_state=%s ==> %s\n" % (keys(*before, b"prev_"), state, keys(*after, b"next_"))


def woken(task, cpu, event=b"sched_wakeup", success=b""):
    return b"%s: %s%s target_cpu=%03d\n" % (event, keys(*task), success, cpu)


def moved(task, orig, dest):
    return b"sched_migrate_task: %s orig_cpu=%d dest_cpu=%d\n" % (keys(*task), orig, dest)


def printed(pid, runtime, virtual, name):
    """What a kernel prints of a charge, both amounts in nanoseconds."""
    return b"sched_stat_runtime: comm=%s pid=%d runtime=%d [ns] vruntime=%d [ns]\n" % (name, pid, runtime, virtual)


def beginning(processors=1, version=1, start=100 * 10**6):
    """The head of a companion, where all floors are at 0."""
    return b"cfs-companion %d\ncpus %d\nstart %d.%06d\n" % (version, processors, *divmod(start, 10**6)) + b"".join(
        b"floor %d 0\n" % cpu for cpu in range(processors))
