"""A conversation with the lens over two descriptors: bytes are sent, answers are awaited for a limited time, and a
wrong one says what was awaited and what came."""
import os
import select
import time

ROOT = os.path.join(os.path.dirname(os.path.abspath(__file__)), "..", "..")
PATIENCE = 20.0
END = b"\n\r"
FIXED = b"NS4050.0093OBENCH                          LPN050M050UIT95  B4.34" + END
RECORD = b"D0000798T0680t5.6+5Z0000H0006123N0000711F0000909V027.3E+023z0000S4050.0093" + END


class Wrong(Exception):
    pass


def lines_of(name):
    with open(os.path.join(ROOT, "crates", "driver", name), "rb") as file:
        return file.read()


def records(came, why):
    """What comes after the whole records is the start of one; hands that back."""
    whole, rest = divmod(len(came), len(RECORD))
    if came != RECORD * whole + RECORD[:rest]:
        raise Wrong(f"{why}: came other bytes than records: {came[-200:]!r}")
    return came[len(came) - rest:]


class Talk:
    def __init__(self, receives, sends):
        self.receives = receives
        self.sends = sends
        # answers awaited, and bytes received
        self.exchanges = 0
        self.count = 0

    def send(self, data):
        while data:
            data = data[os.write(self.sends, data):]

    def come(self, most, patience=PATIENCE):
        """At most so many bytes, as soon as there are some; none when the time is over."""
        if not select.select([self.receives], [], [], patience)[0]:
            return b""
        try:
            came = os.read(self.receives, most)
        except OSError as error:
            raise Wrong(f"the lens is gone: {error}") from error
        self.count += len(came)
        return came

    def awaits(self, wanted, why):
        """Just these bytes."""
        came = b""
        while len(came) < len(wanted):
            more = self.come(len(wanted) - len(came))
            if not more:
                break
            came += more
            if not wanted.startswith(came):
                break
        if came != wanted:
            raise Wrong(f"{why}: awaited {wanted!r}, came {came!r}")
        self.exchanges += 1

    def reaches(self, wanted, why, came=b"", most=20000):
        """Whole records, then these bytes; hands back what came after them."""
        while wanted not in came:
            more = self.come(4096)
            if not more or len(came) > most:
                raise Wrong(f"{why}: awaited {wanted!r} within {most} bytes, came {len(came)} that end {came[-200:]!r}")
            came += more
        before, after = came.split(wanted, 1)
        if records(before, f"{why}: before {wanted!r}"):
            raise Wrong(f"{why}: {wanted!r} came inside a record: {before[-200:]!r}")
        self.exchanges += 1
        return after

    def records(self, why, came=b""):
        """What has come are records; hands back what has come of the last."""
        return records(came + self.come(65536), why)

    def quiet(self, why, patience=0.3):
        came = self.come(4096, patience)
        if came:
            raise Wrong(f"{why}: awaited nothing, came {came!r}")


def commands(talk):
    """Document 01's session, byte by byte: only a carriage return is answered, before the next byte is sent."""
    answers = lines_of("stdout").split(END)[:-1]
    sent = lines_of("stdin").split(b"\r")[:-1]
    talk.awaits(answers[0] + END, "the start")
    for number, command in enumerate(sent):
        for byte in command:
            talk.send(bytes([byte]))
        talk.quiet(f"{command!r} without its carriage return", 0.05)
        talk.send(b"\r")
        if number + 1 < len(answers):
            talk.awaits(answers[number + 1] + END, f"{command!r}")
        else:
            talk.quiet(f"{command!r} under error inhibit")


def continuous(talk):
    """Records run; a command is answered between whole records; H ends them."""
    talk.send(b"H\r")
    talk.awaits(b"!" + END, "'H'")
    talk.send(b"C\r")
    talk.awaits(b"!" + END + RECORD * 3, "'C'")
    talk.send(b"B\r")
    more = talk.reaches(b"B 4.34" + END, "'B' while records run")
    talk.send(b"H\r")
    rest = talk.reaches(b"!" + END, "'H' while records run", more)
    if rest:
        raise Wrong(f"after 'H': awaited nothing, came {rest!r}")
    talk.quiet("after 'H'")
    talk.send(b"D\r")
    talk.awaits(RECORD, "'D'")
    talk.quiet("after 'D'")


def timed(talk, rate, bits, seconds=1.0):
    """Records run no faster than the line at this rate: the time is taken from before the first of them, so that a test that is kept
    waiting finds fewer bytes, never more."""
    talk.send(b"Kb%d\r" % rate)
    talk.awaits(b"Kb%d!" % rate + END, f"'Kb{rate}'")
    began = time.monotonic()
    talk.send(b"C\r")
    talk.awaits(b"!" + END, f"'C' at rate {rate}")
    came = b""
    while time.monotonic() - began < seconds:
        came += talk.come(4096)
    slots = (time.monotonic() - began) * bits / 10
    if len(came) > slots + 100:
        raise Wrong(f"rate {rate}: in the time of {slots:.0f} slots came {len(came)} bytes")
    talk.send(b"H\r")
    talk.reaches(b"!" + END, f"'H' at rate {rate}", came)
