# A capture and what the proved program `replay` made of it: of each port the bytes of its slots, what came in, the commands taken and the
# messages sent.
import bisect
import concurrent.futures
import itertools
import pathlib
import re
import subprocess
import sys
import typing

ROOT = pathlib.Path(__file__).resolve().parent.parent.parent
PROGRAM = ROOT / "crates/replay/out/replay"
STOP = 100000  # the slots after which a replay ends
CR = 13
NUMBERS = (b"0 ", b"1 ")  # what may stand before an event of a capture of both connectors
RECORDS, RECORD_COMMANDS = b"Dd", (b"D", b"Kd")  # how a record starts, and the commands that are answered with one


def fail(what, status=1):
    print(f"scope-picture: {what}", file=sys.stderr)
    sys.exit(status)


# The lines that the program prints for some text.
def replay(data, *arguments):
    command = [ROOT / "tools/x86-64", "run", PROGRAM, *arguments]
    done = subprocess.run(command, input=data, stdout=subprocess.PIPE, stderr=subprocess.PIPE)
    told = done.stdout.split(b"\n")[:-1]
    if done.returncode or not told or not told[-1].startswith(b"slots "):
        fail(f"replay ends with status {done.returncode}: {done.stderr.decode(errors='replace').strip() or 'it tells no slots'}")
    return told


# Bytes as text: printable ones as they are, CR as CR, others in hex.
def shown(data, most=24):
    words = []
    for printable, some in itertools.groupby(data[:most], lambda b: 32 <= b <= 126):
        words += [bytes(some).decode().replace(" ", "␣")] if printable else ["CR" if b == CR else f"0x{b:02x}" for b in some]
    return " ".join(words) + (f" … ({len(data)} bytes)" if len(data) > most else "") or "(empty)"


# A line that ran: its number, its port, its text without the port, its slots (0: it is no S; the last S may be cut short).
class Line(typing.NamedTuple):
    number: int
    port: int
    text: bytes
    slots: int


# A line of the capture that is no S: the slots before it, its number, its text, the byte received (-1: it measures), its refusal (0: none).
class Event(typing.NamedTuple):
    at: int
    line: int
    text: bytes
    byte: int
    refused: int


# A line that the lens took: its bytes, the slots before its carriage return and the number of that, the slot that acts on it (0: it still
# waits).
class Command(typing.NamedTuple):
    text: bytes
    at: int
    line: int
    acted: int


# A message on the line: a greeting, a record or a reply, the command that it answers, its first slot, its bytes.
class Message(typing.NamedTuple):
    kind: str
    command: typing.Optional[Command]
    first: int
    bytes: bytes

    @property
    def last(self):
        return self.first + len(self.bytes) - 1

    @property
    def whole(self):
        return self.bytes.endswith(b"\n\r")


# A capture, of both connectors where its lines may have a port number, replayed with the start-up letter that is given, if one is.
class Capture:
    def __init__(self, data, ports, letter):
        self.both, self.letter = ports, letter
        self.ended, self.wants_ports = "", False  # why it ends early, and whether at a line with a port number where none is taken
        texts = data.split(b"\n")
        texts = texts if texts[-1] else texts[:-1]
        told = self.replay(texts)
        if told[-1:] == [b"refused 10"]:
            wrong = self.wrong_line(texts)
            self.ended = f"line {wrong + 1} is of other form (refused 10): {shown(texts[wrong], 60)}"
            self.wants_ports = not ports and texts[wrong][:2] in NUMBERS
            texts = texts[:wrong]
        sent = [[] for _ in range(1 + ports)]
        self.lines = list(self.run(texts, told, sent))
        self.ports = [Port([line for line in self.lines if line.port == n], own, letter) for n, own in enumerate(sent)]

    def replay(self, texts):
        return replay(b"".join(text + b"\n" for text in texts), *["ports"] * self.both, *self.letter)[:-1]

    # The place of the line of other form, by halving: the lines before it alone are all of the form.
    def wrong_line(self, texts):
        low, high = 0, len(texts) - 1
        while low < high:
            middle = (low + high) // 2
            wrong = self.replay(texts[: middle + 1])[-1:] == [b"refused 10"]
            low, high = (low, middle) if wrong else (middle + 1, high)
        return low

    # The lines that ran, and of each port the byte of each slot, None where it is idle.
    def run(self, texts, told, sent):
        printed = (line.split(b" ") for line in told if not line.startswith(b"r"))
        for number, line in enumerate(texts, 1):
            port, text = (int(line[:1]), line[2:]) if self.both and line[:2] in NUMBERS else (0, line)
            slots = next(printed) if text.startswith(b"S") else []
            sent[port] += [None if word == b"--" else int(word, 16) for word in slots]
            yield Line(number, port, b"S %d" % len(slots) if slots else text, len(slots))
            if sum(map(len, sent)) == STOP:
                self.ended = f"a replay ends after {STOP} slots"
                break


# A port, with the lines that are its own and the byte of each of its slots. What its lines were answered is asked of a lens that has no
# others: what goes on at the other port changes nothing here but a letter in a reply to N, which is proved.
class Port:
    def __init__(self, lines, sent, letter):
        self.lines, self.sent, self.letter = lines, sent, letter
        self.data = b"".join(line.text + b"\n" for line in lines)
        self.offsets = [0, *itertools.accumulate(len(line.text) + 1 for line in lines)]
        self.slot_lines, slots = [], 0  # of each S: the slots before it, and its place among the lines
        for n, line in enumerate(lines):
            if line.slots:
                self.slot_lines.append((slots, n))
            slots += line.slots
        self.events = self.answered_events()
        self.messages, self.commands = self.answers()

    # What came in, with its refusals. Between two slots one carriage return is taken at most, the first: those dropped are the last.
    def answered_events(self):
        events, slots, told = [], 0, replay(self.data, *self.letter)[:-1]
        for (group, number), (refused, _) in zip(groups([line.text for line in self.lines], b"RM"), groups(told, b"r")):
            returns = [n for n in group if self.lines[n].text.upper() == b"R 0D"]
            dropped = set(returns[len(returns) - sum(told[n] == b"refused 7" for n in refused) :])
            for n in group:
                line = self.lines[n]
                byte = int(line.text[2:], 16) if line.text.startswith(b"R") else -1
                events.append(Event(slots, line.number, line.text, byte, 7 if n in dropped else 0))
            slots += self.lines[number].slots if number is not None else 0
        return self.judged_measurements(events) if b"refused 1" in told else events

    # Which measurements are refused: each is asked again with a slot behind it, since no other event has a say in it.
    def judged_measurements(self, events):
        asked, refused = list(dict.fromkeys(e.text for e in events if e.byte < 0)), set()
        for some in (asked[at : at + STOP] for at in range(0, len(asked), STOP)):
            told = replay(b"".join(line + b"\nS 1\n" for line in some), *self.letter)[:-1]
            refused.update(line for line, (group, _) in zip(some, groups(told, b"r")) if group)
        return [e._replace(refused=1) if e.text in refused else e for e in events]

    # Does a command wait after this slot? Then a further carriage return is dropped (7).
    def waits_after(self, slot):
        before, number = self.slot_lines[bisect.bisect_left(self.slot_lines, (slot, 0)) - 1]
        return replay(self.data[: self.offsets[number]] + b"S %d\nR 0d\n" % (slot - before), *self.letter)[-2] == b"refused 7"

    # The slot that acts on a command taken; 0 where none does. It is one in which no message is under way. An idle one leaves no command
    # waiting; a message that is no record is the reply; where one like a record starts, the program is asked, unless it is the last
    # such slot before the next command is taken.
    def acted_in(self, at, free_by, messages):
        slot = at + 1
        while slot <= len(self.sent):
            message = messages.get(slot, b"")
            after = slot + (len(message) or 1)
            if self.sent[slot - 1] is None or message and (message[0] not in RECORDS or after > free_by or not self.waits_after(slot)):
                return slot
            slot = after
        return 0

    # The commands taken.
    def commands_taken(self, messages):
        taken, line = [], bytearray()
        for e in self.events:
            if e.byte == CR and not e.refused:
                taken.append((bytes(line), e.at, e.line))
            if e.byte == CR:
                line.clear()
            elif e.byte >= 0:
                line.append(e.byte)
        with concurrent.futures.ThreadPoolExecutor() as pool:
            free_by = [at for _, at, _ in taken[1:]] + [float("inf")]
            acted = pool.map(lambda one, by: self.acted_in(one[1], by, messages), taken, free_by)
            return [Command(*one, slot) for one, slot in zip(taken, acted)]

    # The bytes sent, cut at LF CR: each message at its first slot.
    def cut(self):
        messages, slot = {}, 1
        for idle, stretch in itertools.groupby(self.sent, lambda byte: byte is None):
            for part in [list(stretch)] if idle else re.findall(rb".*?\n\r|.+", bytes(stretch), re.S):
                if not idle:
                    messages[slot] = part
                slot += len(part)
        return messages

    # The messages and the commands. First comes the greeting; a message that starts in the slot that acts on a command is its reply, but
    # a record where that command has none; the others are records.
    def answers(self):
        cut = self.cut()
        greeting = [Message("greeting", None, 1, cut.pop(1))] if cut else []
        commands = self.commands_taken(cut)
        replied = {c.acted: c for c in commands if cut.get(c.acted, b"D")[0] not in RECORDS or c.text in RECORD_COMMANDS}
        kinds = {slot: "reply" if slot in replied else "record" for slot in cut}
        return greeting + [Message(kinds[slot], replied.get(slot), slot, part) for slot, part in cut.items()], commands


# The places of some lines in groups: those that start with one of these letters, and the one behind them; None behind the last.
def groups(lines, letters):
    group = []
    for n, line in enumerate(lines):
        if line[:1] in letters:
            group.append(n)
        else:
            yield group, n
            group = []
    yield group, None
