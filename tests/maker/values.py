"""What is made of a kernel's own values, a row for each way: what happened, the lines, how far the farthest pick was
above the least that waited, and the companion from its floors on.  They follow from the prints and the rules, by hand.
Times are in microseconds, and 101 runs from 50 ms of virtual time on where nothing else is said."""

from lib import made
from lib.calls import birth, head, moved, switch, wakeup


def printed(microseconds, pid, runtime, v, cpu=0):
    """What the kernel prints of a charge."""
    return head(microseconds, cpu) + made.printed(pid, runtime, v, b"name")


def in_nanoseconds(line):
    """The same line, whose time has nine digits."""
    return line.replace(b": ", b"000: ", 1)


def short_turns(turns):
    """102 wakes and sleeps so often before it is printed to come from 49.5 ms; 101 has come to 51 ms by then."""
    yield from (wakeup(0, 102), printed(1000, 101, 1_000_000, 51_000_000), switch(1000, 101, b"R+", 102),
                switch(1000, 102, b"S", 101))
    for turn in range(1, turns):
        at = 1000 + 10 * turn
        yield from (wakeup(at, 102), switch(at, 101, b"R+", 102), switch(at, 102, b"S", 101))
    yield from (wakeup(2000, 102), switch(2000, 101, b"R+", 102), printed(3000, 102, 1_000_000, 50_500_000),
                switch(3000, 102, b"S", 101))


def short_turns_told(turns, v):
    """Its companion, where 102 has this from the start on."""
    told = (b"floor 0 50000000\ntask 101 0 0 run 50000000\ntask 102 0 0 rest %d\ncharge 1 101 50000000\nat 1 102 %d\n"
            b"charge 3 101 51000000\nat 3 101 51000000\ncharge 4 102 %d\n" % (v, v, v))
    for turn in range(1, turns):
        line = 2 + 3 * turn
        told += (b"charge %d 101 51000000\nat %d 102 %d\ncharge %d 101 51000000\nat %d 101 51000000\ncharge %d 102 %d\n"
                 % (line, line, v, line + 1, line + 1, line + 2, v))
    line = 2 + 3 * turns
    return told + (b"charge %d 101 51000000\nat %d 102 %d\ncharge %d 101 51000000\nat %d 101 51000000\n"
                   b"charge %d 102 50500000\n" % (line, line, v, line + 1, line + 1, line + 3))


ROWS = (
    # Of the 4 ms that are printed 1 ms was behind the start: 101 began at 54 - 1. Nothing is printed before line 1.
    ("a task that ran before the start", 0,
     (wakeup(0, 102), printed(1000, 101, 4_000_000, 54_000_000), switch(1000, 101, b"R+", 102),
      printed(1500, 102, 500_000, 51_500_000), switch(1500, 102, b"S", 101)),
     b"floor 0 53000000\ntask 101 0 0 run 53000000\ntask 102 0 0 rest 51000000\ncharge 1 101 53000000\n"
     b"at 1 102 51000000\ncharge 3 101 54000000\nat 3 101 54000000\ncharge 5 102 51500000\n"),
    # It sleeps before it is printed, so its start is taken at the floor, 50; it is woken at 51.5 - 1, above that.
    ("a task that runs at the start, and sleeps before it is printed", 0,
     (switch(0, 101, b"S", 102), printed(1000, 102, 1_000_000, 51_000_000), wakeup(1000, 101),
      switch(1000, 102, b"R+", 101), printed(2000, 101, 1_000_000, 51_500_000), switch(2000, 101, b"S", 102)),
     b"floor 0 50000000\ntask 101 0 0 run 50000000\ntask 102 0 0 wait 50000000\ncharge 1 101 50000000\n"
     b"charge 3 102 51000000\nat 3 101 50500000\ncharge 4 102 51000000\nat 4 102 51000000\ncharge 6 101 51500000\n"),
    # It is woken at 52.5, above the floor of 51, so it had that already; 102 was put back at 51.
    ("the same, where it wakes above its floor", 1_500_000,
     (switch(0, 101, b"S", 102), printed(1000, 102, 1_000_000, 51_000_000), wakeup(1000, 101),
      switch(1000, 102, b"R+", 101), printed(2000, 101, 1_000_000, 53_500_000), switch(2000, 101, b"S", 102)),
     b"floor 0 50000000\ntask 101 0 0 run 52500000\ntask 102 0 0 wait 50000000\ncharge 1 101 52500000\n"
     b"charge 3 102 51000000\nat 3 101 52500000\ncharge 4 102 51000000\nat 4 102 51000000\ncharge 6 101 53500000\n"),
    # It is woken at 49.5, below the 50 that it was taken to have at the start, so it had 49.5 all along.
    ("a task that sleeps before it is printed", 0, short_turns(1), short_turns_told(1, 49_500_000)),
    # What a print tells of one placement tells those before it too, up to the start.
    ("a task that sleeps three times before it is printed", 0, short_turns(3), short_turns_told(3, 49_500_000)),
    # One print tells 64 placements; the next time that the events are gone through, the last of these tells the others.
    ("a task that sleeps seventy times before it is printed", 0, short_turns(70), short_turns_told(70, 49_500_000)),
    # 103 is printed 0.1 below the floor, which no new task is: it has 50.
    ("a new task that is printed below the floor", 0,
     (birth(0, 103), printed(1000, 101, 1_000_000, 51_000_000), switch(1000, 101, b"R+", 103),
      printed(2000, 103, 500_000, 49_900_000), switch(2000, 103, b"S", 101)),
     b"floor 0 50000000\ntask 101 0 0 run 50000000\ncharge 1 101 50000000\nat 1 103 50000000\ncharge 3 101 51000000\n"
     b"at 3 101 51000000\ncharge 5 103 50000000\n"),
    # 104 wakes at the floor, and 103 is born the debit above it. Each is charged its ms.
    ("tasks of which nothing is printed", 2_000_000,
     (wakeup(0, 104), birth(0, 103), printed(1000, 101, 1_000_000, 51_000_000), switch(1000, 101, b"R+", 104),
      switch(2000, 104, b"R", 103), switch(3000, 103, b"R", 101)),
     b"floor 0 50000000\ntask 101 0 0 run 50000000\ntask 104 0 0 rest 50000000\ncharge 1 101 50000000\n"
     b"at 1 104 50000000\ncharge 2 101 50000000\nat 2 103 53000000\ncharge 4 101 51000000\nat 4 101 51000000\n"
     b"at 5 104 51000000\nat 6 103 54000000\n"),
    # 104 is placed where 102 waits: not at the floor of 60, since it is picked while 102 waits 3 below that.
    ("a woken task that is picked, and sleeps before it is printed", 0,
     (printed(0, 104, 1000, 50_000_000), switch(0, 104, b"S", 101), printed(10_000, 101, 10_000_000, 60_000_000),
      wakeup(10_000, 102), wakeup(10_000, 104), switch(10_000, 101, b"R+", 104), switch(10_000, 104, b"S", 102),
      printed(11_000, 102, 1_000_000, 58_000_000), switch(11_000, 102, b"S", 101)),
     b"floor 0 50000000\ntask 101 0 0 wait 50000000\ntask 102 0 0 rest 57000000\ntask 104 0 0 run 50000000\n"
     b"charge 2 104 50000000\ncharge 4 101 60000000\nat 4 102 57000000\ncharge 5 101 60000000\nat 5 104 57000000\n"
     b"charge 6 101 60000000\nat 6 101 60000000\ncharge 7 104 57000000\ncharge 9 102 58000000\n"),
    ("a new task that is picked, and never printed", 0,
     (birth(0, 103), printed(1000, 101, 1_000_000, 51_000_000), switch(1000, 101, b"R+", 103),
      switch(2000, 103, b"S", 102), printed(3000, 102, 1_000_000, 51_500_000), switch(3000, 102, b"S", 101)),
     b"floor 0 50000000\ntask 101 0 0 run 50000000\ntask 102 0 0 wait 50500000\ncharge 1 101 50000000\n"
     b"at 1 103 50500000\ncharge 3 101 51000000\nat 3 101 51000000\ncharge 6 102 51500000\n"),
    # 104 is taken to wait as far as any print is, at 53, which is 2 above 102.
    ("a task that waits from the start, and is never printed", 2_000_000,
     (switch(0, 101, b"R+", 102), printed(1000, 102, 1_000_000, 51_000_000), switch(1000, 102, b"R+", 101),
      printed(2000, 101, 1_000_000, 53_000_000), switch(2000, 101, b"S", 104)),
     b"floor 0 50000000\ntask 101 0 0 run 52000000\ntask 102 0 0 wait 50000000\ntask 104 0 0 wait 53000000\n"
     b"charge 1 101 52000000\nat 1 101 52000000\ncharge 3 102 51000000\nat 3 102 51000000\ncharge 5 101 53000000\n"),
    # Both prints stand above the first event: 101 has come to 50 by the second.
    ("two prints before the first event", 0,
     (printed(0, 101, 500_000, 49_500_000), printed(0, 101, 500_000, 50_000_000), switch(0, 101, b"R+", 102),
      printed(1000, 102, 1_000_000, 51_000_000), switch(1000, 102, b"S", 101),
      printed(2000, 101, 1_000_000, 51_000_000), switch(2000, 101, b"S", 0)),
     b"floor 0 50000000\ntask 101 0 0 run 50000000\ntask 102 0 0 wait 50000000\ncharge 3 101 50000000\n"
     b"at 3 101 50000000\ncharge 5 102 51000000\ncharge 7 101 51000000\n"),
    # No usual head has nanoseconds.
    ("a print with nine digits of its time", 0,
     (switch(0, 101, b"R+", 102), in_nanoseconds(printed(1000, 102, 1_000_000, 51_000_000)),
      switch(1000, 102, b"S", 101), printed(2000, 101, 1_000_000, 51_000_000), switch(2000, 101, b"S", 0)),
     b"floor 0 50000000\ntask 101 0 0 run 50000000\ntask 102 0 0 wait 50000000\ncharge 1 101 50000000\n"
     b"at 1 101 50000000\ncharge 3 102 51000000\ncharge 5 101 51000000\n"),
    # Both lives of 103 are placed by their own prints.
    ("an end, and a birth of the same pid", 400_000,
     (birth(0, 103), printed(1000, 101, 1_000_000, 51_000_000), switch(1000, 101, b"R+", 103),
      printed(2000, 103, 1_000_000, 51_500_000), switch(2000, 103, b"Z", 101), birth(2500, 103),
      printed(3000, 101, 1_000_000, 52_000_000), switch(3000, 101, b"R+", 103),
      printed(4000, 103, 1_000_000, 53_400_000), switch(4000, 103, b"Z", 101)),
     b"floor 0 50000000\ntask 101 0 0 run 50000000\ncharge 1 101 50000000\nat 1 103 50500000\ncharge 3 101 51000000\n"
     b"at 3 101 51000000\ncharge 5 103 51500000\ncharge 6 101 51000000\nat 6 103 52400000\ncharge 8 101 52000000\n"
     b"at 8 101 52000000\ncharge 10 103 53400000\n"),
    # On line 3 102 comes to weigh 335: what it ran before cost 4 ms, and 1 ms behind it 3056716.
    ("changes of a nice value, one of them on the last line", 0,
     (switch(0, 101, b"R+", 102), printed(4000, 102, 4_000_000, 54_000_000),
      switch(4000, 102, b"R+", 101, prio=125), printed(5000, 101, 1_000_000, 52_500_000),
      switch(5000, 101, b"S", 102, next_prio=125), printed(6000, 102, 1_000_000, 57_056_716),
      switch(6000, 102, b"S", 0, prio=110)),
     b"floor 0 50000000\ntask 101 0 0 run 51500000\ntask 102 0 0 wait 50000000\ncharge 1 101 51500000\n"
     b"at 1 101 51500000\ncharge 3 102 54000000\nnice 3 102 5\nat 3 102 54000000\ncharge 5 101 52500000\n"
     b"charge 7 102 57056716\nnice 7 102 -10\n"),
    # Line 6 has room for that of 102. That of 101 stands on line 4, the last before at which the processor had none.
    ("two changes on one line", 2_500_000,
     (printed(0, 101, 500_000, 51_500_000), switch(0, 101, b"R+", 102), printed(2000, 102, 2_000_000, 52_000_000),
      wakeup(2000, 103), printed(4000, 102, 2_000_000, 54_000_000),
      switch(4000, 102, b"R+", 101, prio=125, next_prio=121), printed(5000, 101, 1_000_000, 52_748_780),
      switch(5000, 101, b"S", 103, prio=121), printed(6000, 103, 1_000_000, 50_000_000),
      switch(6000, 103, b"S", 102, next_prio=125)),
     b"floor 0 50000000\ntask 101 0 0 run 51500000\ntask 102 0 0 wait 50000000\ntask 103 0 0 rest 49000000\n"
     b"charge 2 101 51500000\nat 2 101 51500000\ncharge 4 102 52000000\nnice 4 101 1\nat 4 103 49000000\n"
     b"charge 6 102 54000000\nnice 6 102 5\nat 6 102 54000000\ncharge 8 101 52748780\ncharge 10 103 50000000\n"),
    # The print is above the drift that any setting allows, 10^12, so 101 is charged its second ms.
    ("a print that is beyond every drift", 1_999_999_000_000,
     (switch(0, 0, b"R", 101), printed(1000, 101, 1_000_000, 51_000_000), wakeup(1000, 101),
      printed(2000, 101, 1_000_000, 2_000_051_000_000), switch(2000, 101, b"R", 102)),
     b"floor 0 50000000\ntask 101 0 0 wait 50000000\ntask 102 0 0 wait 2000051000000\ncharge 3 101 51000000\n"
     b"at 5 101 52000000\n"),
    # No floor is above 2^62, though the credit would be.
    ("a wakeup at the end of the range", 0,
     (wakeup(0, 101), switch(0, 0, b"R", 101), printed(1, 101, 1000, 2**62), switch(1, 101, b"S", 0)),
     b"floor 0 4611686018427387904\ntask 101 0 0 rest 4611686018427386904\nat 1 101 4611686018427386904\n"
     b"charge 4 101 4611686018427387904\n"),
)
# 103 is born at 55, and 102 woken later at 51: the floor is at most 51 and the credit, also where the kernel told more.
FIRST_PLACED = (birth(0, 103), switch(0, 0, b"R", 103), printed(1000, 103, 1_000_000, 56_000_000), wakeup(1000, 102),
                switch(1000, 103, b"R+", 102), printed(2000, 102, 1_000_000, 52_000_000), switch(2000, 102, b"S", 103))
FIRST_PLACED_TOLD = (b"floor 0 %d\ntask 102 0 0 rest 51000000\nat 1 103 55000000\ncharge 4 103 56000000\n"
                     b"at 4 102 51000000\ncharge 5 103 56000000\nat 5 103 56000000\ncharge 7 102 52000000\n")
# Of two processors; 101 runs at the first, from 50 on, and 201 at the second, from 10 on.
ROWS_OF_TWO = (
    # 102 comes to processor 1 at 9.2 on line 2, where the floors are 50 and 10.5: so it was woken 1.3 below its floor.
    ("a woken task that is moved before it runs", 0,
     (wakeup(0, 102), moved(500, 102, 0, 1), printed(1000, 201, 1_000_000, 11_000_000, cpu=1),
      switch(1000, 201, b"R+", 102, cpu=1), printed(2000, 102, 1_000_000, 10_200_000, cpu=1),
      switch(2000, 102, b"S", 201, cpu=1), printed(2000, 101, 2_000_000, 52_000_000), switch(2000, 101, b"S", 0)),
     b"floor 0 50000000\nfloor 1 10000000\ntask 101 0 0 run 50000000\ntask 102 0 0 rest 48700000\n"
     b"task 201 0 1 run 10000000\ncharge 1 101 50000000\nat 1 102 48700000\ncharge 2 101 50000000\nat 2 102 9200000\n"
     b"charge 4 201 11000000\nat 4 201 11000000\ncharge 6 102 10200000\ncharge 8 101 52000000\n"),
    # 104 is taken to wait as far as any print at its own processor is, at 53, not at the 90.5 of the other.
    ("a task that waits from the start, and is never printed, beside another processor", 2_000_000,
     (switch(0, 101, b"R+", 102), printed(500, 201, 500_000, 90_500_000, cpu=1), switch(500, 201, b"S", 0, cpu=1),
      printed(1000, 102, 1_000_000, 51_000_000), switch(1000, 102, b"R+", 101),
      printed(2000, 101, 1_000_000, 53_000_000), switch(2000, 101, b"S", 104)),
     b"floor 0 50000000\nfloor 1 90000000\ntask 101 0 0 run 52000000\ntask 102 0 0 wait 50000000\n"
     b"task 104 0 0 wait 53000000\ntask 201 0 1 run 90000000\ncharge 1 101 52000000\nat 1 101 52000000\n"
     b"charge 3 201 90500000\ncharge 5 102 51000000\nat 5 102 51000000\ncharge 7 101 53000000\n"),
    # It is woken there at 9.3, below the floor of 10 that it was taken to stand at: so it is moved at 0.7 less.
    ("a resting task that is moved", 0,
     (moved(0, 102, 0, 1), wakeup(1000, 102, cpu=1), printed(2000, 201, 2_000_000, 12_000_000, cpu=1),
      switch(2000, 201, b"R+", 102, cpu=1), printed(3000, 102, 1_000_000, 10_300_000, cpu=1),
      switch(3000, 102, b"S", 201, cpu=1), printed(3000, 101, 3_000_000, 53_000_000), switch(3000, 101, b"S", 0)),
     b"floor 0 50000000\nfloor 1 10000000\ntask 101 0 0 run 50000000\ntask 102 0 0 rest 49300000\n"
     b"task 201 0 1 run 10000000\ncharge 1 101 50000000\npass 1 102 9300000\ncharge 2 201 10000000\nat 2 102 9300000\n"
     b"charge 4 201 12000000\nat 4 201 12000000\ncharge 6 102 10300000\ncharge 8 101 53000000\n"),
    # 102 comes to 52 - 51 + 11.5, since what it was printed to have is told; on line 7 nothing is printed of it there.
    ("a printed task that is moved", 500_000,
     (switch(0, 101, b"R+", 102), printed(1000, 102, 1_000_000, 52_000_000), switch(1000, 102, b"R+", 101),
      moved(1500, 102, 0, 1), printed(2000, 201, 2_000_000, 12_000_000, cpu=1), switch(2000, 201, b"R+", 102, cpu=1),
      wakeup(2500, 201, cpu=1), printed(3000, 102, 1_000_000, 13_400_000, cpu=1), switch(3000, 102, b"S", 201, cpu=1),
      printed(3000, 101, 2_000_000, 53_000_000), switch(3000, 101, b"S", 0)),
     b"floor 0 51000000\nfloor 1 10000000\ntask 101 0 0 run 51000000\ntask 102 0 0 wait 51000000\n"
     b"task 201 0 1 run 10000000\ncharge 1 101 51000000\nat 1 101 51000000\ncharge 3 102 52000000\nat 3 102 52000000\n"
     b"charge 4 101 51000000\nat 4 102 12500000\ncharge 6 201 12000000\nat 6 201 12000000\ncharge 7 102 12500000\n"
     b"charge 9 102 13400000\ncharge 11 101 53000000\n"),
)
