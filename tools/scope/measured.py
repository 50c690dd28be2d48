# What is measured of a port's commands and records, beside demand 3's bounds.
import re
import subprocess
import typing

from scope.capture import ROOT, fail, shown

PROMISE, LENS = "crates/rules/specs/Promise.antt", "crates/rules/specs/Lens.antt"
FIGURES = ("acted on", "reply gone", "record to record")


# What is measured from one slot to another: the line of the carriage return where it starts there (0: it does not), the slots at its ends
# and between, whether it ends in the capture, what is said of it, and its three figures (0: it has none).
class Span(typing.NamedTuple):
    line: int
    stops: list
    ends: bool
    said: str
    figures: tuple


# What is measured of each command, and from record to record while continuous sending stays on: one reply between them at most, and
# no idle slot.
def measured(port, bounds):
    replies = {m.command: m for m in port.messages if m.command}
    for c in port.commands:
        reply, acted = replies.get(c), max(0, c.acted - c.at)
        gone = reply.last - c.at if reply and reply.whole else 0
        stops = [c.at, *([c.acted] if acted else [len(port.sent)]), *([reply.last] if reply else [])]
        replied = f"{len(reply.bytes)} bytes {f'gone {gone}/{bounds[1]}' if gone else 'so far'}" if reply else "no reply"
        said = f"acted on {acted}/{bounds[0]}, {replied}" if acted else "still waits at the end"
        yield Span(c.line, stops, acted > 0 and (not reply or gone > 0), f"{shown(c.text, 12)}: {said}", (acted, gone, 0))
    record, replied, end = None, 0, 0
    for m in port.messages:
        record = record if m.first == end + 1 and replied <= 1 else None
        if m.kind == "record" and record:
            figures = (0, 0, m.first - record.last)
            yield Span(0, [record.last, m.first], True, told_figures(figures, bounds), figures)
        record, replied = (m, 0) if m.kind == "record" else (record, replied + 1)
        end = m.last


def told_figures(figures, bounds):
    return ", ".join(f"{what} {n}/{bound}" for what, n, bound in zip(FIGURES, figures, bounds) if n)


def largest(spans):
    return tuple(max((s.figures[i] for s in spans), default=0) for i in range(len(FIGURES)))


def proved_bounds():
    found = re.search(r"^Demand3 = .*Promised lens (\d+) (\d+) (\d+) s$", (ROOT / PROMISE).read_text(), re.M)
    return tuple(int(n) for n in found.groups()) if found else fail(f"no bounds in {PROMISE}")


# The table of rates: of each rate number the bits a second, and the three bounds as times. And the number at a start.
def rate_table():
    table = subprocess.run([ROOT / "tools/slot-times"], stdout=subprocess.PIPE, check=True, text=True).stdout
    start = re.search(r"^start_modes .* rate = (\d);", (ROOT / LENS).read_text(), re.M) or fail(f"no rate in {LENS}")
    rows = re.findall(r"^\| (\d) \| (\d+) \|[^|]*\| (\S+ ms) \| (\S+ ms) \| (\S+ ms) \|", table, re.M)
    return {n: (int(bits), tuple(times)) for n, bits, *times in rows}, start[1]


# The rates of a port: the slots before each, its bits a second, and the three bounds as times. A Kb's is there behind its reply.
def rates(port, table, start):
    changed = [(m.last, m.bytes[2:3].decode()) for m in port.messages if m.command and m.whole and re.match(rb"Kb[0-7]!", m.bytes)]
    return [(slots, *table[n]) for slots, n in [(0, start), *changed]]


# The milliseconds that so many slots take, each at its rate.
def milliseconds(port_rates, slots):
    ends = [at for at, *_ in port_rates[1:]] + [slots]
    return sum((min(end, slots) - at) * 10000 / bits for (at, bits, _), end in zip(port_rates, ends) if at < slots)
