# The picture of a capture: a header, and rows of time one under the other, with a strip for each port in every row.
import bisect
import collections
import html
import itertools
import typing

from scope import axis, measured
from scope.axis import LEFT, WIDTH, Axis
from scope.capture import shown

RIGHT = 1192  # where the text of a row ends
PER_ROW, FEW_ROWS = (20, 50, 100, 250), 3  # the slots of a row: the fewest that make few rows, or else the most
CAMERA, LINE, BOX, LANES = 0, 44, 78, 122  # in a strip: the tops of the traces and of the boxes, and the first arrow
ABOVE, BELOW, SCALE = 15, 24, 13  # the heights of a lane of what comes in, of one of arrows, and of a scale
CROWD = 24  # so much is told one by one in a strip; more is counted
NAMES, DASH = ("camera side", "external"), "–"
LETTER = 54  # where a reply to N has the start-up letter
STYLE = """
text { font: 12px sans-serif; fill: #93a9ae; stroke: #0e171b; stroke-width: 4px; paint-order: stroke } path { fill: none }
.main { font-size: 13px; fill: #dfe9ea } .title { font-size: 18px; fill: #dfe9ea } .boxed { font-size: 13px; fill: #dfe9ea; stroke: none }
.bright { fill: #dfe9ea } .camera { fill: #f4b942 } .lens { fill: #3dbba2 } .given { fill: #d0a8ff } .wrong { fill: #ff8f80 }
.mid { text-anchor: middle } .end { text-anchor: end } .fold { fill: #0e171b; stroke: none } .bits { stroke-width: 0.8 } .dense { stroke-width: 0.3 }
.grid { stroke: #24373e } .flat { stroke: #93a9ae } .dots { stroke: #93a9ae; stroke-dasharray: 2 4 } .in { stroke: #f4b942 }
.greeting { stroke: #b4c3c6 } .record { stroke: #3dbba2 } .reply { stroke: #76b9ff }
.greeting-box { fill: #2a383d } .record-box { fill: #163834 } .reply-box { fill: #20364d }
.cr { stroke: #f4b942; stroke-dasharray: 4 3 } .stop { stroke: #dfe9ea; stroke-dasharray: 4 3 } .arrow { stroke: #dfe9ea } .tip { fill: #dfe9ea }
"""
# the lines of a strip, in the order in which they are drawn
LINES = ("grid", "flat", "dots", "in", "greeting-box", "record-box", "reply-box", "greeting", "record", "reply", "cr", "stop", "arrow", "tip")


def text(x, y, what, style=""):
    return f'<text x="{x:g}" y="{y}" class="{style}">{html.escape(what)}</text>'


def width(what):
    return 6.6 * len(what)


# What comes in between two slots, as words, each with its style.
def told_events(events):
    words = []
    for (measures, refused), some in itertools.groupby(events, lambda e: (e.byte < 0, e.refused)):
        some = list(some)
        lines = f"line {some[0].line}" + (f" to {some[-1].line}" if len(some) > 1 else "")
        if refused:
            words.append(("wrong", f"{'M' if measures else 'line dropped'}: refused {refused} ({lines})"))
        else:
            words.append(("given", f"M ({lines})") if measures else ("camera", shown(bytes(e.byte for e in some))))
    return words if len(words) <= 6 else words[:5] + [("wrong", f"and more, up to line {events[-1].line}")]


# Lanes for some parts of a strip (from, to, ..): what starts further left lies further out, so that a line to it crosses no other.
def in_lanes(parts):
    free = []
    for part in sorted(parts, key=lambda part: part[:2], reverse=True):
        lane = next((n for n, start in enumerate(free) if part[1] + 10 <= start), len(free))
        free[lane : lane + 1] = [part[0]]
        yield lane, part


# A part of a span in a strip: the places of its stops, what is said of it, whether it starts and ends here, the span (None: just said).
class Arrow(typing.NamedTuple):
    stops: list
    said: str
    starts: bool
    ends: bool
    span: typing.Optional[measured.Span]

    # from where to where it is, and its text: the place, how much lower, the anchor. It stands above the arrow, or behind it, or before.
    def layout(self):
        start, end, long = self.stops[0], self.stops[-1], width(self.said)
        if end - start >= long:
            return start, end, (start + end) / 2, -6, "mid"
        if end + 6 + long <= RIGHT:
            return start, end + 6 + long, end + 6, 4, ""
        return start - 6 - long, end, start - 6, 4, "end"


# A port's part of a row: what comes in (a place, events, words; no events: the end), its arrows, its texts, its traces and the lines of
# each style.
class Strip:
    def __init__(self):
        self.comes, self.arrows, self.texts = [], [], []
        self.traces, self.lines = collections.defaultdict(list), collections.defaultdict(list)

    # what comes in, above the trace of what is sent to the lens; answers its height
    def draw_comes(self):
        if len(self.comes) > CROWD:
            events = [e for _, some, _ in self.comes for e in some]
            words = [("camera", f"{len(events)} bytes and measurements, too close to be told")]
            words += [("wrong", f"{sum(e.refused > 0 for e in events)} of them refused")] if any(e.refused for e in events) else []
            self.comes = [(LEFT, [], words), *(come for come in self.comes if not come[1])]
        parts = []
        for x, _, words in self.comes:
            long = width(" ".join(word for _, word in words))
            parts.append((min(x, RIGHT - long), min(x, RIGHT - long) + long, x, words))
        height = 0
        for lane, (start, _, x, words) in in_lanes(parts):
            y = CAMERA - 7 - ABOVE * lane
            height = max(height, ABOVE * (lane + 1))
            self.lines["in"].append(f"M{x:g} {y - 9}V{CAMERA}")
            said = " ".join(f'<tspan class="{style}">{html.escape(word)}</tspan>' for style, word in words)
            self.texts.append(f'<text x="{start + 4:g}" y="{y}">{said}</text>')
        return height

    # the arrows, below the lens's boxes; answers their height. The largest figures of the port are brighter.
    def draw_arrows(self, bounds, most):
        if len(self.arrows) > CROWD:
            spans = [arrow.span for arrow in self.arrows if arrow.span]
            figures = measured.told_figures(measured.largest(spans), bounds)
            said = f"{len(spans)} commands and records, too close to be told; the largest: {figures}"
            self.arrows = [Arrow([LEFT, LEFT], said, False, False, None)]
        height = 0
        for lane, (_, _, x, lower, anchor, arrow) in in_lanes((*arrow.layout(), arrow) for arrow in self.arrows):
            y = LANES + BELOW * lane
            height = max(height, BELOW * (lane + 1))
            bright = arrow.span and any(n and n == top for n, top in zip(arrow.span.figures, most))
            self.texts.append(text(x, y + lower, arrow.said, f"{anchor} bright" if bright else anchor))
            self.draw_arrow(y, arrow)
        return height

    def draw_arrow(self, y, arrow):
        first, *others = arrow.stops
        if not arrow.span:
            self.lines["flat"].append(f"M{first + 3:g} {BOX + 24}V{y}H{others[-1] + 3:g}")
            return
        self.lines["arrow"].append(f"M{first:g} {y}H{others[-1]:g}")
        if arrow.starts:
            self.lines["cr" if arrow.span.line else "stop"].append(f"M{first:g} {CAMERA if arrow.span.line else BOX + 24}V{y + 4}")
        for before, x in zip(arrow.stops, others if arrow.ends else others[:-1]):
            self.lines["stop"].append(f"M{x:g} {BOX + 24}V{y + 4}")
            self.lines["tip"].append(f"M{x:g} {y}l-8-3.2v6.4z" if x - before >= 8 else "")

    def svg(self, y):
        yield f'<g transform="translate(0 {y})">'
        yield from (f'<path class="{style}" d="{"".join(self.lines[style])}"/>' for style in LINES if style in self.lines)
        for (top, style), uses in self.traces.items():
            yield f'<g transform="translate(0 {top})" class="{style}">{"".join(uses)}</g>'
        yield from self.texts
        yield "</g>"


# A port on the axis: a strip for each row. `letters`: whether the letter that a reply to N shows is told.
class Panel:
    def __init__(self, port, clock, bounds, letters):
        self.port, self.clock, self.letters = port, clock, letters
        self.spans = list(measured.measured(port, bounds))
        self.most = measured.largest(self.spans)

    # Draws it. Shapes are kept once for all ports; of each fold it is told what is left out here.
    def draw(self, own_axis, shapes, left_out):
        self.axis, self.shapes = own_axis, shapes
        self.strips = [Strip() for _ in range(own_axis.rows)]
        self.draw_grid()
        self.draw_in()
        self.draw_idle()
        for m in self.port.messages:
            self.draw_message(m)
        self.draw_spans()
        self.draw_rests()
        self.draw_folds(left_out)

    def draw_grid(self):
        for strip, times in zip(self.strips, self.axis.grid()):
            for _, x in times:
                strip.lines["grid"].append(f"M{x:g} {CAMERA - 6}V{CAMERA + 32}M{x:g} {LINE - 6}V{BOX + 28}")

    # The levels of some bytes, each of so many ticks: a start bit, eight bits, lowest first, and a stop bit. A part of them is drawn, from
    # so many ticks on, from where to where. Equal ones are kept once.
    def levels(self, data, ticks, part, y, style):
        skipped, start, end = part
        bits = [(bit, len(list(some))) for bit, some in itertools.groupby("".join(f"1{byte:08b}0"[::-1] for byte in data))]
        for row, a, b, x, _ in self.axis.pieces(start, end):
            low, high = ((skipped + at - start) * 10 / ticks for at in (a, b))
            path, now, at = "M0 0", "1", 0
            for bit, long in bits:
                seen = min(at + long, high) - max(at, low)
                if seen > 0:
                    path += ("" if bit == now else "v26" if bit == "0" else "v-26") + f"h{self.axis.width(seen * ticks / 10):g}"
                    now = bit
                at += long
            n = self.shapes.setdefault(path, len(self.shapes))
            dense = "bits" if self.axis.width(ticks) >= 8 else "dense"
            self.strips[row].traces[y, f"{style} {dense}"].append(f'<use href="#s{n}" x="{x:g}"/>')

    def line(self, start, end, y, style):
        for row, _, _, x, to in self.axis.pieces(start, end) if start < end else ():
            self.strips[row].lines[style].append(f"M{x:g} {y}H{to:g}")

    # The slots between two moments as they are drawn, cut where the port rests.
    def stretches(self, first, last):
        for a, b in self.clock.stretches(first, last):
            yield a, b, self.axis.drawn(self.clock.start(a)), self.axis.drawn(self.clock.end(b))

    # Where so many bytes are drawn that came at a time, between two slots: in those before, where the port runs and nothing is left out.
    def room(self, came, at, count):
        ticks = count * self.clock.ticks(at)
        start, end = self.axis.drawn(came - ticks), self.axis.drawn(came)
        return (start, end) if count and self.clock.ended(came - ticks) == at - count and start == end - ticks else None

    # What is sent to the lens is told, and its bytes are drawn where there is room since those before. Between them the line is high.
    def draw_in(self):
        busy = []
        for came, events in itertools.groupby(self.port.events, lambda e: self.clock.came[e.line]):
            events = list(events)
            row, x = self.axis.place(self.axis.drawn(came))
            self.strips[row].comes.append((x, events, told_events(events)))
            data = bytes(e.byte for e in events if e.byte >= 0)
            room = self.room(came, events[0].at, len(data))
            if room and room[0] >= (busy[-1][1] if busy else 0):
                self.levels(data, self.clock.ticks(events[0].at), (0, *room), CAMERA, "in")
                busy.append(room)
        for _, _, start, end in self.stretches(0, len(self.port.sent)):
            within = busy[bisect.bisect_left(busy, (start,)) : bisect.bisect_left(busy, (end,))]
            between = [start, *itertools.chain(*within), end]
            for a, b in zip(between[::2], between[1::2]):
                self.line(a, b, CAMERA, "in")

    # A message of the lens: its levels, and a box that is open where a row, a rest, a fold or the capture cuts it off. It is told where it
    # fits in.
    def draw_message(self, m):
        pieces = []
        for a, b in self.clock.stretches(m.first - 1, m.last):
            begin, stop = self.clock.start(a), self.clock.end(b)
            for part in self.axis.visible(begin, stop):
                skipped, start, end = part
                self.levels(m.bytes[a - m.first + 1 : b - m.first + 1], self.clock.ticks(m.first), part, LINE, m.kind)
                starts, ends = a == m.first - 1 and not skipped, b == m.last and begin + skipped + end - start == stop and m.whole
                self.draw_box(m.kind, start, end, starts, ends)
                pieces.append(self.axis.widest(start, end))
        if pieces:
            self.tell_message(m, max(pieces, key=lambda piece: piece[2] - piece[1]))

    def draw_box(self, kind, start, end, starts, ends):
        for row, a, b, x, to in self.axis.pieces(start, end):
            left, right = f"V{BOX}" if a == start and starts else "", "v24" if b == end and ends else "m0 24"
            self.strips[row].lines[kind + "-box"].append(f"M{x:g} {BOX}H{to:g}v24H{x:g}z")
            self.strips[row].lines[kind].append(f"M{x + 0.5:g} {BOX}H{to - 0.5:g}{right}H{x + 0.5:g}{left}")

    def tell_message(self, m, piece):
        row, _, _, x, to = piece
        what = f"reply to {shown(m.command.text, 12)}" if m.command else m.kind
        if self.letters and what == "reply to N" and len(m.bytes) > LETTER:
            what += f": letter {chr(m.bytes[LETTER])}"
        said = [f"{what}, {len(m.bytes)} bytes{'' if m.whole else ' so far'}", what, what.replace("reply to ", "")]
        fits = [s for s in said if width(s) + 4 <= to - x]
        if fits:
            self.strips[row].texts.append(text((x + to) / 2, BOX + 17, fits[0], "boxed mid"))
        elif not m.command:
            self.strips[row].arrows.append(Arrow([x, to], said[0], False, False, None))

    # Idle slots: the line is high, and there is no box.
    def draw_idle(self):
        ends, starts = [0] + [m.last for m in self.port.messages], [m.first - 1 for m in self.port.messages] + [len(self.port.sent)]
        for first, last in zip(ends, starts):
            for a, b, start, end in self.stretches(first, last):
                self.line(start, end, LINE, "flat")
                self.line(start, end, BOX + 12, "dots")
                row, _, _, x, to = self.axis.widest(start, end)
                if end - start == self.clock.end(b) - self.clock.start(a) and to - x >= 90:
                    self.strips[row].texts.append(text((x + to) / 2, BOX + 6, f"idle, {b - a} slots", "mid"))

    # Where the port has no slots there is nothing.
    def draw_rests(self):
        rests = [(self.clock.end(slots), self.clock.start(slots)) for slots in dict(self.clock.rests[1:])]
        for start, end in [*rests, (self.clock.now(), self.axis.ticks)]:
            if start < end:
                row, _, _, x, to = self.axis.widest(self.axis.drawn(start), self.axis.drawn(end))
                if self.axis.drawn(end) - self.axis.drawn(start) == end - start and to - x >= 90:
                    self.strips[row].texts.append(text((x + to) / 2, BOX + 6, "no slots", "mid"))

    # What is left out hides the lines behind it, and is told.
    def draw_folds(self, left_out):
        broken = "l-8 26 8 26 -8 26 8 26"
        for fold, what in zip(self.axis.folds, left_out):
            start, end = self.axis.drawn(fold.start), self.axis.drawn(fold.end)
            for row, a, b, x, to in self.axis.pieces(start, end):
                sides = (f"M{x + 8:g} {CAMERA - 2}{broken}" if a == start else "") + (f"M{to:g} {CAMERA - 2}{broken}" if b == end else "")
                hidden = f'<path class="fold" d="M{x:g} {CAMERA - 2}H{to:g}V{BOX + 26}H{x:g}z"/>'
                self.strips[row].texts.append(f'{hidden}<path class="flat" d="{sides}"/>')
            row, _, _, x, to = self.axis.widest(start, end)
            self.strips[row].texts += [text((x + to) / 2, LINE + 2, what, "main mid"), text((x + to) / 2, LINE + 18, "left out", "mid")]

    # All but those of records back to back.
    def draw_spans(self):
        for span in (span for span in self.spans if span.figures[2] != 1):
            first, *others = span.stops
            times = [self.clock.came[span.line] if span.line else self.clock.end(first), *map(self.clock.end, others)]
            drawn = [self.axis.drawn(time) for time in itertools.accumulate(times, max)]
            told = self.axis.widest(drawn[0], drawn[-1])
            for piece in self.axis.pieces(drawn[0], drawn[-1]):
                row, a, b, x, to = piece
                stops = [x, *(x + self.axis.width(at - a) for at in drawn[1:-1] if a < at <= b), to]
                starts, ends = a == drawn[0], b == drawn[-1] and span.ends
                self.strips[row].arrows.append(Arrow(stops, span.said if piece == told else "", starts, ends, span))


# The picture of a capture. What is said, and how long slots are, is another for one port than for both.
class Picture:
    def __init__(self, capture, name):
        self.capture, self.bounds = capture, measured.proved_bounds()
        table = measured.rate_table()
        self.rates = [measured.rates(port, *table) for port in capture.ports]
        clocks = axis.clocks(capture.lines, self.paces())
        self.panels = [Panel(port, clock, self.bounds, self.letters) for port, clock in zip(capture.ports, clocks)]
        slots, taken = sum(len(port.sent) for port in capture.ports), sum(len(port.commands) for port in capture.ports)
        letter = "".join(f", start-up letter {letter}" for letter in capture.letter)
        self.title = f"{name}{self.whose}{letter}: slots {slots}, commands taken {taken}"
        unit, end = axis.commonest(clocks), max(clock.now() for clock in clocks)
        left_out = list(axis.folds(capture.ports, clocks, unit))
        axes = [Axis(end, left_out, per_row, unit) for per_row in PER_ROW]
        self.axis = next((one for one in axes if one.rows <= FEW_ROWS), axes[-1])
        self.grid = self.axis.grid()

    def header(self):
        yield "title", self.title
        for n, panel in enumerate(self.panels):
            figures = zip(measured.FIGURES, panel.most, self.bounds)
            yield "main", f"{self.largest(n)}: {', '.join(f'{what} {most or DASH}/{bound}' for what, most, bound in figures)}"
        for bits, times in {bits: times for rates in self.rates for _, bits, times in rates}.items():
            yield "", f"The bounds at {bits} bits a second: {', '.join(times)}"
        if self.explained:
            yield "", self.explained
        events = [e for port in self.capture.ports for e in port.events]
        for number, times in sorted(collections.Counter(e.refused for e in events if e.refused).items()):
            yield "wrong", f"Refused {number}, {'lines dropped while a command waits' if number == 7 else 'measurements out of range'}: {times}"
        if self.capture.ended:
            yield "wrong", f"The run ends early: {self.capture.ended}"

    # Where the run ends early, it is said above the first trace.
    def draw_end(self):
        if self.capture.ended:
            row, x = self.axis.place(self.axis.end)
            said = self.capture.ended.split(":")[0] + ": the run ends here"
            self.panels[0].strips[row].comes.append((x, [], [("wrong", said)]))

    # A strip with what is written at its side and above it. Answers what is drawn, and how high it is.
    def draw_strip(self, n, row, y):
        panel, strip = self.panels[n], self.panels[n].strips[row]
        above, below = strip.draw_comes(), strip.draw_arrows(self.bounds, panel.most)
        scales = self.scales(n)
        tops = [CAMERA - above - 8 - SCALE * further for further in reversed(range(len(scales)))]
        strip.texts += [text(28, CAMERA + 17, self.sender, "main camera"), text(28, LINE + 17, "from the lens", "main lens")]
        strip.texts += [text(28, top, word, style) for top, (word, style) in zip(tops, scales)]
        for time, x in self.grid[row]:
            strip.texts += [text(x, top, number, "mid") for top, number in zip(tops, self.numbers(n, time)) if number]
        head = above + 18 + SCALE * len(scales)
        return strip.svg(y + head), head + LANES - 6 + below

    def svg(self):
        shapes = {}
        for n, panel in enumerate(self.panels):
            panel.draw(self.axis, shapes, [fold.what[n] for fold in self.axis.folds])
        self.draw_end()
        header = list(self.header())
        drawn = [text(28, 38 + 21 * n, line, style) for n, (style, line) in enumerate(header)]
        y = 38 + 21 * len(header)
        for row, n in itertools.product(range(self.axis.rows), range(len(self.panels))):
            strip, height = self.draw_strip(n, row, y)
            drawn += strip
            y += height
            if n and row + 1 < self.axis.rows:  # the rows of both ports are set apart
                drawn.append(f'<path class="grid" d="M28 {y + 6}H{LEFT + WIDTH}"/>')
                y += 6
        kept = [f'<path id="s{n}" d="{path}"/>' for path, n in shapes.items()]
        return "\n".join([
            f'<svg xmlns="http://www.w3.org/2000/svg" viewBox="0 0 1200 {y}" role="img" aria-labelledby="title desc">',
            f'<title id="title">{html.escape(self.title)}</title>',
            f'<desc id="desc">{html.escape(". ".join(line for _, line in header[1:]))}</desc>',
            f'<style>{STYLE}</style><defs>{"".join(kept)}</defs><rect width="1200" height="{y}" rx="12" fill="#0e171b"/>',
            *drawn,
            "</svg>\n",
        ]).encode()


# Of one port: a tick is a slot, whatever its rate.
class OnePort(Picture):
    whose, sender, letters, explained = "", "from the camera", False, ""

    def paces(self):
        return [[(0, 1)]]

    def largest(self, _):
        return "Largest here / proved bound, in slots after the carriage return, or after the record before"

    # What stands beside each scale, and above a time on each.
    def scales(self, _):
        return [("slots", ""), ("ms", "")]

    def numbers(self, _, time):
        return [str(time), f"{measured.milliseconds(self.rates[0], time):.2f}"]


# Of both: the milliseconds are one scale, and each has its own slots.
class BothPorts(Picture):
    whose, sender, letters = ", both connectors", "to the lens", True
    explained = (
        "One time axis for both: from event to event their slots run side by side, each as long as its rate makes it; "
        "the one with fewer has none until the next event"
    )

    def paces(self):
        return [[(at, axis.TEN_SECONDS // bits) for at, bits, _ in rates] for rates in self.rates]

    def largest(self, n):
        return f"{NAMES[n].capitalize()} ({n}): largest here / proved bound, in its own slots after the carriage return or the record before"

    def scales(self, n):
        return [(NAMES[n], "main"), ("slots", "")]

    def numbers(self, n, time):
        clock = self.panels[n].clock
        return ["" if n else f"{time * 10000 / axis.TEN_SECONDS:.2f} ms", str(clock.ended(time)) if time <= clock.now() else ""]


def picture(capture, name):
    return (BothPorts if capture.both else OnePort)(capture, name)
