# The time axis of a picture of both connectors, on random captures: a slot is as long as at its rate, events stand in the capture's order
# to a slot, and what was written as it came in time is drawn without a rest.
import itertools
import pathlib
import random
import sys

sys.dont_write_bytecode = True
sys.path.insert(0, str(pathlib.Path(__file__).resolve().parent.parent.parent / "tools"))
from scope.axis import TEN_SECONDS, Clock, clocks
from scope.capture import Line

RATES = (9600, 19200, 38400, 48000, 57600, 96000, 115200, 230400)
CAPTURES, LINES = 40, 60


def random_paces(dice):
    starts = sorted(dice.sample(range(1, 500), dice.randint(0, 3)))
    return [(at, TEN_SECONDS // dice.choice(RATES)) for at in [0, *starts]]


# Lines in any order, as anybody may write them.
def any_lines(dice, _):
    long = dice.choice((3, 30, 90))
    return [Line(n, dice.randrange(2), b"", dice.choice((0, dice.randint(1, long)))) for n in range(1, LINES)]


# At each event the whole slots of both up to it, then the event: from true times, with the ports' slots at their own rates.
def true_lines(dice, paces):
    truth, time, lines = [Clock(one) for one in paces], 0, []
    for _ in range(LINES // 3):
        time += dice.randint(0, 5000)
        for port, clock in enumerate(truth):
            before = clock.slots
            clock.slots = next(n for n in itertools.count(before) if clock.run(n + 1) > time)
            lines += [Line(len(lines) + 1, port, b"", clock.slots - before)] * (clock.slots > before)
        lines.append(Line(len(lines) + 1, dice.randrange(2), b"", 0))
    return lines


def check(lines, paces):
    both = clocks(lines, paces)
    for clock in both:
        for n in range(clock.slots):
            assert clock.end(n) <= clock.start(n) == clock.end(n + 1) - clock.ticks(n + 1), "a slot has its rate's length, behind the one before"
            assert clock.ended(clock.start(n)) == n, "the slots that have ended at a time"
    run, latest = [0, 0], 0
    for line in lines:
        run[line.port] += line.slots
        if not line.slots:
            came, slot = both[line.port].came[line.number], both[line.port].ticks(run[line.port] + 1)
            assert came >= max(latest, *(clock.end(n) for clock, n in zip(both, run))) - slot, "an event comes behind what is before it"
            assert all(came <= clock.start(n) + clock.ticks(n + 1) for clock, n in zip(both, run)), "and before what is behind it"
            latest = max(latest, came)
    return both


dice = random.Random(8)
for lines_of, n in itertools.product((any_lines, true_lines), range(CAPTURES)):
    paces = [random_paces(dice), random_paces(dice)]
    both = check(lines_of(dice, paces), paces)
    assert lines_of is any_lines or all(len(clock.rests) == 1 for clock in both), "no port rests where the lines are as they came in time"
print(f"scope: {2 * CAPTURES} captures on the time axis of both connectors")
