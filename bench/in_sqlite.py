#!/usr/bin/env python3
"""All rows of a pattern among the events that count, by an indexed self-join in SQLite: what `listen` is measured beside.

    bench/in_sqlite.py PATTERN EVENTS

prints the rows in the order in which they are told. The events are loaded into a table in memory first; standard error has how many seconds
the load, the indexes and the query with the printing took."""

import array
import sqlite3
import sys
import time

FIELDS = ["who", "value", "time"]
SIGNS = ["=", "<", ">="]


def read_numbers(path):
    row = array.array("Q")
    with open(path, "rb") as file:
        row.frombytes(file.read())
    if sys.byteorder == "big":
        row.byteswap()
    return row


class Reader:
    """Takes a pattern's numbers one after the other. The pattern is taken to be one that may be."""

    def __init__(self, numbers):
        self.numbers = iter(numbers)

    def tests(self):
        """Triples of a field, a sign, and a number or a step and its field."""
        tests = []
        for _ in range(next(self.numbers)):
            what, sign, back, step, other = (next(self.numbers) for _ in range(5))
            tests.append((FIELDS[what], SIGNS[sign], (step, FIELDS[other]) if back else other))
        return tests

    def never(self):
        return next(self.numbers), self.tests()

    def step(self):
        kind, tests = next(self.numbers), self.tests()
        return kind, tests, [self.never() for _ in range(next(self.numbers))]

    def pattern(self):
        within, late, many = (next(self.numbers) for _ in range(3))
        return within, late, [self.step() for _ in range(many)]


def before(a, b):
    """That one event is before another; in a form in which an index by time serves."""
    return f"{a}.time <= {b}.time AND ({a}.time < {b}.time OR {a}.heard < {b}.heard)"


def tests_of(own, tests):
    for field, sign, other in tests:
        side = f"s{other[0]}.{other[1]}" if isinstance(other, tuple) else other
        yield f"{own}.{field} {sign} {side}"


def never_clause(step, kind, tests):
    conditions = [f"n.kind = {kind}", before(f"s{step - 1}", "n"), before("n", f"s{step}"), *tests_of("n", tests)]
    return f"NOT EXISTS (SELECT 1 FROM events n WHERE {' AND '.join(conditions)})"


def who_groups(steps):
    """A number for each step; steps of one number have events of the same who in every row."""
    groups = list(range(len(steps)))
    for i, (_kind, tests, _nevers) in enumerate(steps):
        for field, sign, other in tests:
            if (field, sign) == ("who", "=") and isinstance(other, tuple) and other[1] == "who":
                groups = [groups[other[0]] if g == groups[i] else g for g in groups]
    return groups


def query(within, steps):
    """The join goes as rows are told: by the last event, then the first, the second and so on. It is said of each event too that it is
    before the last one, and of the same who where that follows, so that the indexes serve from the first step on."""
    last = len(steps) - 1
    order = [last, *range(last)]
    groups = who_groups(steps)
    conditions = []
    for i, (kind, tests, nevers) in enumerate(steps):
        conditions.append(f"s{i}.kind = {kind}")
        conditions += tests_of(f"s{i}", tests)
        if i > 0:
            conditions.append(before(f"s{i - 1}", f"s{i}"))
            conditions += [never_clause(i, *never) for never in nevers]
        if i < last - 1:
            conditions.append(before(f"s{i}", f"s{last}"))
        if i < last and groups[i] == groups[last]:
            conditions.append(f"s{i}.who = s{last}.who")
    if last > 0:
        conditions.append(f"s0.time >= s{last}.time - {within}")
    return (
        f"SELECT {', '.join(f's{i}.heard' for i in range(last + 1))}"
        f" FROM {' CROSS JOIN '.join(f'events s{i}' for i in order)}"
        f" WHERE {' AND '.join(conditions)}"
        f" ORDER BY {', '.join(f's{i}.time, s{i}.heard' for i in order)}"
    )


def counted(numbers, late):
    """Of all events those that aren't too late, with their numbers."""
    latest = 0
    for heard in range(len(numbers) // 4):
        at = numbers[4 * heard]
        if at >= latest - late:
            latest = max(latest, at)
            yield heard, *numbers[4 * heard : 4 * heard + 4]


def main():
    if len(sys.argv) != 3:
        sys.exit(__doc__)
    within, late, steps = Reader(read_numbers(sys.argv[1])).pattern()
    numbers = read_numbers(sys.argv[2])
    clock = [time.perf_counter()]
    base = sqlite3.connect(":memory:")
    base.execute("CREATE TABLE events (heard INTEGER, time INTEGER, kind INTEGER, who INTEGER, value INTEGER)")
    base.executemany("INSERT INTO events VALUES (?, ?, ?, ?, ?)", counted(numbers, late))
    clock.append(time.perf_counter())
    base.execute("CREATE INDEX by_who ON events (kind, who, time, heard, value)")
    base.execute("CREATE INDEX by_time ON events (kind, time, heard, who, value)")
    clock.append(time.perf_counter())
    row_format = " ".join(["%d"] * len(steps)) + "\n"
    sys.stdout.writelines(row_format % row for row in base.execute(query(within, steps)))
    sys.stdout.flush()
    clock.append(time.perf_counter())
    seconds = [b - a for a, b in zip(clock, clock[1:])]
    print("load %.6f index %.6f query %.6f" % tuple(seconds), file=sys.stderr)


if __name__ == "__main__":
    main()
