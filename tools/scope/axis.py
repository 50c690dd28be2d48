# When the slots of each port run, which stretches of a run are left out, and where a moment stands in the picture. Time is counted in
# ticks. Of one port alone a tick is a slot. Of two it is a part of a second of which a slot has a whole number at each rate; a capture has
# no clock, so their slots run side by side, and where one of them has fewer before an event, it rests until then.
import bisect
import collections
import itertools
import typing

LEFT, WIDTH = 160, 1000  # where a row starts, and how wide it is
GAP = 120  # how wide a fold is drawn
FOLD_IDLE, FOLD_RECORDS = (60, 10), (600, 100)  # longer stretches, idle or of records alone, are folded; so many slots stay at each side
TEN_SECONDS = 1152000  # in ticks, where there are two ports: a slot is ten bits


# When the slots of a port run, given the slots before each rate and the ticks of a slot at it. A moment between two slots lies at the end
# of the one or, where the port rested between them, at the start of the other.
class Clock:
    def __init__(self, paces):
        self.paces = paces
        took = [(b[0] - a[0]) * a[1] for a, b in zip(paces, paces[1:])]
        self.began = [0, *itertools.accumulate(took)]
        self.slots, self.came = 0, {}  # the slots run, and when each line that is no S came
        self.rests = [(-1, 0)]  # the slots before each, and the ticks of all up to it

    def pace(self, slots):
        return max(0, bisect.bisect_left(self.paces, (slots,)) - 1)

    # the ticks of the slot before this moment
    def ticks(self, slots):
        return self.paces[self.pace(slots)][1]

    # the ticks that so many slots run
    def run(self, slots):
        n = self.pace(slots)
        return self.began[n] + (slots - self.paces[n][0]) * self.paces[n][1]

    def end(self, slots):
        return self.run(slots) + self.rests[bisect.bisect_left(self.rests, (slots,)) - 1][1]

    def start(self, slots):
        return self.run(slots) + self.rests[bisect.bisect_left(self.rests, (slots + 1,)) - 1][1]

    def now(self):
        return self.start(self.slots)

    def rest(self, until):
        self.rests.append((self.slots, self.rests[-1][1] + until - self.now()))

    # the slots that have ended at a time
    def ended(self, time):
        return bisect.bisect_right(range(self.slots + 1), time, key=self.end) - 1

    # some slots, given the moments before and behind them, cut where the port rests: moments as well
    def stretches(self, first, last):
        within = self.rests[bisect.bisect_left(self.rests, (first + 1,)) : bisect.bisect_left(self.rests, (last,))]
        cuts = list(dict(within))
        return zip([first, *cuts], [*cuts, last]) if first < last else ()


# The clocks of the ports, whose paces are given: an event comes when all have run what the capture has before it, but for a slot at most.
def clocks(lines, paces):
    all_clocks = [Clock(one) for one in paces]
    for line in lines:
        own = all_clocks[line.port]
        own.slots += line.slots
        if not line.slots:
            latest = max(clock.now() for clock in all_clocks)
            for clock in all_clocks:
                if latest - clock.now() > clock.ticks(clock.slots + 1):
                    clock.rest(latest)
            own.came[line.number] = own.now()
    return all_clocks


# The ticks that most slots have.
def commonest(all_clocks):
    counts = collections.Counter()
    for clock in all_clocks:
        ends = [at for at, _ in clock.paces[1:]] + [clock.slots]
        for (at, ticks), end in zip(clock.paces, ends):
            counts[ticks] += end - at
    return counts.most_common(1)[0][0]


# A stretch that is left out, and what that is at each port.
class Fold(typing.NamedTuple):
    start: int
    end: int
    what: list


# A port on its clock: what it does at a time, and when that changes.
class Doings:
    def __init__(self, port, clock):
        self.port, self.clock = port, clock
        self.firsts = [m.first for m in port.messages]
        self.starts = [clock.start(first - 1) for first in self.firsts]

    # The times at which something happens; from one record to the next nothing does.
    def points(self):
        messages = self.port.messages
        moments = {0, len(self.port.sent), *(m.last for m in messages[-1:]), *(c.acted for c in self.port.commands)}
        for before, m in zip(messages, messages[1:]):
            if before.last + 1 < m.first or before.kind != "record" or m.kind != "record":
                moments.update((before.last, m.first - 1))
        moments.update(slots for slots, _ in self.clock.rests[1:])
        return {*self.clock.came.values(), *map(self.clock.end, moments), *map(self.clock.start, moments)}

    # What goes on in a stretch in which nothing happens: a kind of message, "idle", or nothing where the port has no slots.
    def kind(self, start, end):
        slots = self.clock.ended(start)
        if slots == len(self.port.sent) or self.clock.start(slots) >= end:
            return ""
        if self.port.sent[slots] is None:
            return "idle"
        return self.port.messages[bisect.bisect_right(self.firsts, slots + 1) - 1].kind

    # The part of a stretch of records that starts with one, and ends where one starts, but for so much at each side.
    def records(self, start, end, kept):
        first, last = (bisect.bisect_left(self.firsts, self.clock.ended(at)) for at in (start + kept, end - kept))
        last -= last == len(self.starts) or self.starts[last] > end
        return (self.starts[first], self.starts[last]) if first < last else None

    def told(self, kind, start, end):
        slots = self.clock.ended(end) - self.clock.ended(start)
        if kind == "record" and start in self.starts and end in self.starts:
            return f"{self.starts.index(end) - self.starts.index(start)} records"
        return {"record": f"{slots} slots", "idle": f"{slots} idle slots", "": "no slots"}[kind]


# The stretches to fold, each between two times at which something happens: where all are idle, and where some send records alone.
def folds(ports, all_clocks, unit):
    doings = [Doings(port, clock) for port, clock in zip(ports, all_clocks)]
    points = sorted(set().union(*(one.points() for one in doings)))
    for a, b in zip(points, points[1:]):
        if b - a <= FOLD_IDLE[0] * unit:
            continue
        kinds = [one.kind(a, b) for one in doings]
        longest, kept = (n * unit for n in (FOLD_RECORDS if "record" in kinds else FOLD_IDLE))
        if b - a > longest and set(kinds) <= {"record", "idle", ""}:
            ends = doings[kinds.index("record")].records(a, b, kept) if "record" in kinds else (a + kept, b - kept)
            if ends:
                yield Fold(*ends, [one.told(kind, *ends) for one, kind in zip(doings, kinds)])


# Where ticks stand in rows. A fold has some units of its own, and goes on in the next row where it does not fit; a unit is the commonest slot.
class Axis:
    def __init__(self, end, left_out, per_row, unit):
        self.row, self.folds, self.moved = per_row * unit, left_out, [0]
        for fold in left_out:
            drawn, rest = -(-GAP * per_row // WIDTH) * unit, -(fold.start + self.moved[-1]) % self.row
            self.moved.append(self.moved[-1] + fold.start - fold.end + drawn + (rest if rest < drawn else 0))
        self.ticks, self.end = end, end + self.moved[-1]
        self.rows = max(1, -(-self.end // self.row))

    # how wide so many ticks are
    def width(self, ticks):
        return ticks * WIDTH / self.row

    # a time as it is drawn; None within a fold
    def drawn(self, time):
        n = bisect.bisect_left(self.folds, (time,))
        return None if n and time < self.folds[n - 1].end else time + self.moved[n]

    # the parts of a stretch that are not left out, as they are drawn, each with how far from its start it is
    def visible(self, start, end):
        behind = bisect.bisect_left(self.folds, (start,))
        left_out = self.folds[max(0, behind - 1) : bisect.bisect_left(self.folds, (end,))]
        left_out = left_out if not left_out or start < left_out[0].end else left_out[1:]
        starts, ends = [start, *(fold.end for fold in left_out)], [*(fold.start for fold in left_out), end]
        return [(a - start, self.drawn(a), self.drawn(b)) for a, b in zip(starts, ends) if a < b]

    # the parts of what is drawn, row by row: the row, from where to where, the places there
    def pieces(self, start, end):
        first = min(start // self.row, self.rows - 1)
        for row in range(first, max(first + 1, -(-end // self.row))):
            a, b, before = max(start, row * self.row), min(end, (row + 1) * self.row), row * self.row
            yield row, a, b, LEFT + self.width(a - before), LEFT + self.width(b - before)

    def widest(self, start, end):
        return max(self.pieces(start, end), key=lambda piece: piece[2] - piece[1])

    def place(self, drawn):
        row, _, _, x, _ = next(self.pieces(drawn, drawn))
        return row, x

    # of each row the times of its grid, and their places
    def grid(self):
        rows = [[] for _ in range(self.rows)]
        for time in range(0, self.ticks + 1, self.row // 10):
            if self.drawn(time) is not None:
                row, x = self.place(self.drawn(time))
                rows[row].append((time, x))
        return rows
