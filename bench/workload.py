#!/usr/bin/env python3
"""Writes a workload: a pattern file and an events file, the same ones for the same name, size and seed.

    bench/workload.py NAME EVENTS SEED PATTERN-FILE EVENTS-FILE

NAME is quiet, dense or deep. Standard output has what the workload is like: how many events are too late, how many are of a kind that the
pattern doesn't name, and how many have to be held, at the median and at most."""

import array
import heapq
import random
import statistics
import sys

WHO, VALUE, TIME = 0, 1, 2
EQUAL, BELOW, NOT_BELOW = 0, 1, 2
DOOR, LAMP, GUARD, BELL, STAIR, GATE, OTHER = 1, 2, 3, 4, 5, 6, 7


def against_step(what, sign, step, field):
    """A test of a field against a field of an earlier step's event."""
    return [what, sign, 1, step, field]


def against_number(what, sign, number):
    return [what, sign, 0, 0, number]


def never(kind, *tests):
    return [kind, len(tests)] + [n for test in tests for n in test]


def step(kind, tests=(), nevers=()):
    parts = [kind, len(tests)] + [n for test in tests for n in test]
    return parts + [len(nevers)] + [n for one in nevers for n in one]


def same_who(earlier):
    return against_step(WHO, EQUAL, earlier, WHO)


class Workload:
    """A pattern, and events for it.

    The clock goes on by less than `pace` from one event to the next. Each `delayed`-th event is heard of up to the lateness after it
    happened, each `too_late`-th after more than that. Kinds are chosen by their weights, who and value below `whos` and `values`."""

    def __init__(self, within, late, steps, pace, kinds, whos, values=100, delayed=2, too_late=1000):
        self.within, self.late, self.steps = within, late, steps
        self.pace, self.whos, self.values = pace, whos, values
        self.delayed, self.too_late = delayed, too_late
        # One entry a weight, so that a kind is chosen by one number.
        self.kinds = [kind for kind, weight in kinds.items() for _ in range(weight)]

    def pattern(self):
        return [self.within, self.late, len(self.steps)] + [n for one in self.steps for n in one]

    def named(self):
        """The kinds of steps and nevers. All workloads leave out OTHER alone."""
        return set(self.kinds) - {OTHER}

    def delay(self, chance):
        if chance() * self.too_late < 1:
            return self.late + 1 + int(chance() * self.late)
        if chance() * self.delayed < 1:
            return int(chance() * (self.late + 1))
        return 0

    def events(self, count, seed):
        """Time, kind, who and value of each event as it is heard of."""
        chance = random.Random(seed).random
        clock = 1000.0 + 2 * self.late
        for _ in range(count):
            clock += chance() * self.pace
            kind = self.kinds[int(chance() * len(self.kinds))]
            yield int(clock) - self.delay(chance), kind, int(chance() * self.whos), int(chance() * self.values)


WORKLOADS = {
    # The night's pattern: a door, and a lamp of the same who within 60, and never a guard between.
    "quiet": Workload(
        within=60,
        late=20,
        steps=[step(DOOR), step(LAMP, [same_who(0)], [never(GUARD)])],
        pace=1.2,
        kinds={DOOR: 30, LAMP: 30, GUARD: 5, OTHER: 10},
        whos=20,
    ),
    # The same with a window in which thousands of events lie, and never a guard of the same who.
    "dense": Workload(
        within=6500,
        late=500,
        steps=[step(DOOR), step(LAMP, [same_who(0)], [never(GUARD, same_who(0))])],
        pace=1.8,
        kinds={DOOR: 40, LAMP: 40, GUARD: 10, OTHER: 10},
        whos=2000,
    ),
    # Six steps with tests of who, of value and of numbers, and two nevers.
    "deep": Workload(
        within=80,
        late=20,
        steps=[
            step(DOOR, [against_number(VALUE, NOT_BELOW, 20)]),
            step(LAMP, [same_who(0)]),
            step(BELL, [against_step(VALUE, NOT_BELOW, 0, VALUE)]),
            step(STAIR, [same_who(0)]),
            step(GATE, [against_step(VALUE, BELOW, 2, VALUE)], [never(GUARD, same_who(0))]),
            step(DOOR, [same_who(1), against_number(VALUE, BELOW, 70)], [never(GUARD, against_step(VALUE, NOT_BELOW, 3, VALUE))]),
        ],
        pace=2.0,
        kinds={DOOR: 24, LAMP: 16, BELL: 16, STAIR: 16, GATE: 16, GUARD: 4, OTHER: 8},
        whos=8,
    ),
}


def told_of(workload, events):
    """What the events are like for the pattern: late, unnamed, and held at the median and at most."""
    named = workload.named()
    latest, late, unnamed = 0, 0, 0
    times, held = [], []
    for time, kind, _who, _value in events:
        mark = latest - workload.late
        if time < mark:
            late += 1
            continue
        latest = max(latest, time)
        if kind in named:
            heapq.heappush(times, time)
        else:
            unnamed += 1
        while times and times[0] + workload.within < latest - workload.late:
            heapq.heappop(times)
        held.append(len(times))
    return f"late {late} unnamed {unnamed} held {int(statistics.median(held))} most {max(held)}"


def write_numbers(path, numbers):
    row = array.array("Q", numbers)
    if sys.byteorder == "big":
        row.byteswap()
    with open(path, "wb") as out:
        row.tofile(out)


def main():
    if len(sys.argv) != 6 or sys.argv[1] not in WORKLOADS:
        sys.exit(__doc__)
    name, count, seed, pattern_file, events_file = sys.argv[1:]
    workload = WORKLOADS[name]
    events = list(workload.events(int(count), int(seed)))
    write_numbers(pattern_file, workload.pattern())
    write_numbers(events_file, (n for event in events for n in event))
    print(told_of(workload, events))


if __name__ == "__main__":
    main()
