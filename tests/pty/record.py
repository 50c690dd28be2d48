"""heron-bench record on the lens's serial device, and on a device at whose other end the test itself answers."""
import os
import re
import select
import signal
import subprocess
import termios
import threading

from talk import END, FIXED, PATIENCE, RECORD, ROOT, Talk, Wrong

FIXED_ROWS = """fixed data, 67 bytes
   1 serial                  "4050.0093"
   2 owner                   "BENCH"
   3 lens type               P, prime
   4 focal length            50 mm
   5 maximum focal length    50 mm
   6 start-up letter         I, imperial
   7 transmission            95
   8 version                 "4.34"
"""

RECORD_ROWS = """   1 focus distance          79.8 in
   2 true aperture           f/6.80
   3 ring stop               5.6
   4 tenth                   5/10 of a stop
   5 effective focal length  0 mm
   6 hyperfocal distance     612.3 in
   7 near distance           71.1 in
   8 far distance            90.9 in
   9 field of view           27.3 degrees
  10 entrance pupil          +2.3 in
  11 normalised zoom         0.000
  12 serial                  "4050.0093"
"""


class Record:
    """A run of heron-bench record; one that lasts too long is ended."""

    def __init__(self, bench, *arguments, stderr=subprocess.PIPE):
        command = [os.path.join(ROOT, "tools", "x86-64"), "run", bench, "record", *arguments]
        self.words = " ".join(command[3:])
        self.run = subprocess.Popen(command, stdout=subprocess.PIPE, stderr=stderr)
        self.late = threading.Timer(PATIENCE, self.run.kill)
        self.late.daemon = True
        self.late.start()

    def lines(self, count):
        """The next lines of standard output."""
        return "".join(self.run.stdout.readline().decode() for _ in range(count))

    def end(self):
        """Status, standard output and error, or None for one that is no pipe."""
        out, err = self.run.communicate()
        self.late.cancel()
        return self.run.returncode, *(None if text is None else text.decode() for text in (out, err))

    def ends(self, *wanted):
        came = self.end()
        if came != wanted:
            raise Wrong(f"{self.words}: awaited status, output and errors {wanted!r}, came {came!r}")


def report(link, form, length, records):
    """What is printed of so many records behind the fixed data."""
    place = len(FIXED) + 3
    lines = [f"{link}: byte 0: {FIXED_ROWS}", f'{link}: byte {len(FIXED)}: reply, 3 bytes: done, "!"\n']
    for number in range(records):
        lines.append(f"{link}: byte {place + number * length}: {form} record, {length} bytes\n{RECORD_ROWS}")
    return "".join(lines)


def rest(terminal):
    """All that was written at the other end, which is closed."""
    came = b""
    try:
        while more := os.read(terminal, 65536):
            came += more
    except OSError:  # a terminal's way to end
        pass
    os.close(terminal)
    return came


def idle(link, opened):
    """The lens sends nothing, and answers N."""
    device = opened(link)
    talk = Talk(device, device)
    talk.quiet("after a recording")
    talk.send(b"N\r")
    talk.awaits(FIXED, "'N' after a recording")
    talk.quiet("after 'N'")
    os.close(device)


def on_the_lens(bench, link, opened):
    """Both forms; Ctrl-C; output that nobody reads; a lens that sends records already."""
    Record(bench, "--count", "5", "--unit", "I", link).ends(0, report(link, "text", 76, 5), "records: 5, refused: 0\n")
    idle(link, opened)
    ours, theirs = os.openpty()
    run = Record(bench, "-f", "packed", "-n", "5", "-u", "I", link, stderr=theirs)
    run.ends(0, report(link, "packed", 41, 5), None)
    os.close(theirs)
    shown = rest(ours).decode()
    if not re.fullmatch(r"(records: \d+, refused: 0\r +\r)+records: 5, refused: 0\r\n", shown):
        raise Wrong(f"{run.words}: the count on a terminal is {shown!r}")
    idle(link, opened)

    run = Record(bench, link)
    lines = run.lines(10 + 3 * 13)
    run.run.send_signal(signal.SIGINT)
    status, out, err = run.end()
    records = (lines + out).count(": text record, 76 bytes\n")
    if status != 0 or records < 3 or err != f"records: {records}, refused: 0\n":
        raise Wrong(f"Ctrl-C: status {status}, {records} records, then {err!r}")
    idle(link, opened)

    run = Record(bench, link)
    run.lines(1)
    run.run.stdout.close()
    run.run.stdout = None
    status, _, err = run.end()
    if status != 2 or not re.fullmatch(r"heron-bench: standard output cannot be written: Broken pipe\nrecords: \d+, refused: 0\n", err):
        raise Wrong(f"a reader that goes away: status {status}, then {err!r}")
    idle(link, opened)

    device = opened(link)
    talk = Talk(device, device)
    talk.send(b"C\r")
    talk.awaits(b"!" + END + RECORD, "'C'")
    os.close(device)
    status, out, err = Record(bench, "-n", "2", link).end()
    refused = out.count("fixed data, refused 3, message of wrong length")
    if status != 1 or refused == 0 or err != f"records: 2, refused: {refused}\n" or out.count(FIXED_ROWS) != 1:
        raise Wrong(f"a lens that sends already: status {status}, {out!r}, then {err!r}")
    idle(link, opened)


def scripted(bench):
    """The test answers: messages that are refused or too long, a device that says nothing, then one that ends."""
    lens, device = os.openpty()
    link = os.ttyname(device)
    before = termios.tcgetattr(device)
    talk = Talk(lens, lens)

    run = Record(bench, "--count", "2", "-u", "I", link)
    talk.awaits(b"N\r", "the recorder's first bytes")
    for piece in (b"4\n", b"\r<\n\r" + FIXED[:-3] + b"5" + END + FIXED):
        talk.send(piece)
    talk.awaits(b"C\r", "fixed data accepted")
    talk.send(b"!\n\r" + RECORD + b"D" * 200 + END + RECORD[:7] + b"x" + RECORD[8:] + RECORD + RECORD[:20])
    talk.awaits(b"H\r", "enough records")
    talk.send(RECORD[20:] + b"!\n\r")
    damaged = RECORD[:7].decode() + "x" + RECORD[8:-2].decode()
    run.ends(1, "".join([
        f'{link}: byte 0: fixed data, refused 3, message of wrong length: 3 bytes, not 67\n     "4\\x0A\\x0D"\n',
        f'{link}: byte 3: reply, 3 bytes: ready, "<"\n',
        f"{link}: byte 6: {FIXED_ROWS}".replace("4.34", "4.35"),
        f'{link}: byte 73: text record, refused 3, message of wrong length: 67 bytes, not 76\n     "{FIXED[:-2].decode()}\\x0A\\x0D"\n',
        f'{link}: byte 140: reply, 3 bytes: done, "!"\n',
        f"{link}: byte 143: text record, 76 bytes\n{RECORD_ROWS}",
        f"{link}: byte 219: refused 9, message too long: 202 bytes, more than 160\n",
        f'{link}: byte 421: text record, refused 6, contents no writer writes: field 1, focus distance\n     "{damaged}\\x0A\\x0D"\n',
        f"{link}: byte 497: text record, 76 bytes\n{RECORD_ROWS}",
    ]), "records: 2, refused: 4\n")
    talk.quiet("after a recording")
    if termios.tcgetattr(device) != before:
        raise Wrong("a recording leaves the terminal with other settings")

    # what only starts as a reply does is refused; then H has no answer
    run = Record(bench, "--count", "1", "-u", "I", link)
    talk.awaits(b"N\r", "the recorder's first bytes")
    talk.send(FIXED)
    talk.awaits(b"C\r", "fixed data accepted")
    talk.send(b"!\n\rV027.3" + END + RECORD)
    talk.awaits(b"H\r", "enough records")
    run.ends(2, "".join([
        f'{link}: byte 0: {FIXED_ROWS}{link}: byte 67: reply, 3 bytes: done, "!"\n',
        f'{link}: byte 70: text record, refused 3, message of wrong length: 8 bytes, not 76\n     "V027.3\\x0A\\x0D"\n',
        f"{link}: byte 78: text record, 76 bytes\n{RECORD_ROWS}",
    ]), f"heron-bench record: {link}: no answer to H: it may still be sending\nrecords: 1, refused: 1\n")

    run = Record(bench, link)
    talk.awaits(b"N\r", "the recorder's first bytes")
    said = f"heron-bench record: {link}: no fixed data after 5 seconds; still waiting: is the lens on, and on this line? Ctrl-C ends it\n"
    if not select.select([run.run.stderr], [], [], PATIENCE)[0]:
        raise Wrong(f"{run.words}: says nothing of a silent lens")
    run.run.send_signal(signal.SIGTERM)
    run.ends(0, "", said + "records: 0, refused: 0\n")
    talk.quiet("after a recording of nothing")

    # with a closed standard output no byte of what is printed goes to the lens
    closed = subprocess.Popen(["sh", "-c", 'exec "$@" >&-', "sh", os.path.join(ROOT, "tools", "x86-64"), "run", bench, "record", link],
                              stderr=subprocess.PIPE)
    talk.awaits(b"N\r", "the recorder's first bytes")
    talk.send(FIXED)
    talk.awaits(b"C\rH\r", "nothing but commands")
    talk.send(b"!\n\r!\n\r")
    said = closed.communicate(timeout=PATIENCE)[1].decode()
    if closed.returncode != 2 or said != "heron-bench: standard output cannot be written: Bad file descriptor\nrecords: 0, refused: 0\n":
        raise Wrong(f"a closed output: status {closed.returncode}, {said!r}")
    talk.quiet("after a recording to nowhere")

    run = Record(bench, link)
    talk.awaits(b"N\r", "the recorder's first bytes")
    os.close(device)
    os.close(lens)
    status, _, err = run.end()
    # the kernel tells either
    gone = [f"heron-bench record: {link}: {how}\nrecords: 0, refused: 0\n" for how in ("has ended", "cannot be read: Input/output error")]
    if status != 2 or err not in gone:
        raise Wrong(f"a device that ends: status {status}, {err!r}")


def typed(bench):
    """A terminal as standard input: that it is read is said."""
    ours, theirs = os.openpty()
    run = subprocess.Popen([os.path.join(ROOT, "tools", "x86-64"), "run", bench, "checksum"], stdin=theirs, stdout=subprocess.PIPE,
                           stderr=subprocess.PIPE)
    os.write(ours, b"B 4.34\x04\x04")
    came = *(text.decode() for text in run.communicate(timeout=PATIENCE)), run.returncode
    os.close(ours)
    os.close(theirs)
    if came != ("H@\n", "heron-bench checksum: reads what is typed; Ctrl-D ends it\n", 0):
        raise Wrong(f"a terminal as input: {came!r}")
