"""Both connectors of the lens at once, each a conversation of its own."""
from talk import END, FIXED, RECORD, Wrong

METRIC = b"D0002027T0680t5.6+5Z0000H0015552N0001806F0002309V027.3E+058z0000S4050.0093" + END

# what a lens in running answers, plain and imperial
ANSWERS = [
    (b"N", FIXED),
    (b"B", b"B 4.34" + END),
    (b"P", b"P21" + END),
    (b"V", b"V0.0250" + END),
    (b"K3", b"K3               " + END),
    (b"Kd", b"d@@L^Jh\xb8\x85@@@A_k@@KG@@NMDQ@W@@S4050.0093" + END),
    (b"Q", b"?" + END),
]
# its film, unit and modes are changed, and the last two back; on the bench lens all films have one circle
CHANGES = [
    (b"W05", b"W0.0250" + END),
    (b"Y", b"Y" + END),
    (b"D", METRIC),
    (b"G", b"!MN" + END),
    (b"B", b"B 4.34H@" + END),
    (b"Ka", b"!MN" + END),
    (b"H", b"!" + END),
    (b"D", METRIC),
    (b"X", b"X" + END),
    (b"D", RECORD),
]


def asked(talk, command, answer, why):
    talk.send(command + b"\r")
    talk.awaits(answer, f"{command!r}, {why}")


def greeted(talk, fixed=FIXED):
    """A connector after a start: ready, and then running."""
    talk.awaits(b"<" + END, "the start")
    asked(talk, b"C", b"<" + END, "in ready")
    asked(talk, b"N", fixed, "in ready")


def beside(busy, other):
    """Records run on one connector. The other answers meanwhile, its unit and its modes changed too, which the records do not show; then the busy
    one answers, between whole records."""
    asked(busy, b"C", b"!" + END + RECORD, "with the other connector idle")
    came = b""
    for command, answer in ANSWERS + CHANGES:
        asked(other, command, answer, "beside records")
        came = busy.records(f"beside {command!r} on the other connector", came)
    for command, answer in ANSWERS:
        busy.send(command + b"\r")
        came = busy.reaches(answer, f"{command!r} while records run", came)
    other.quiet("beside records", 0.05)
    busy.send(b"H\r")
    if busy.reaches(b"!" + END, "'H' while records run", came):
        raise Wrong("after 'H': awaited nothing")
    busy.quiet("after 'H'", 0.05)


def letters(one, other):
    """From start-up letter B: what Y or X makes of it shows in the other's fixed data, and nothing else shows there."""
    imperial, metric = FIXED.replace(b"UI", b"UB"), FIXED.replace(b"UI", b"Ub")
    greeted(one, imperial)
    greeted(other, imperial)
    asked(one, b"Y", b"Y" + END, "letter B")
    asked(other, b"N", metric, "after Y on the other connector")
    asked(other, b"D", RECORD, "after Y on the other connector")
    asked(one, b"D", METRIC, "after Y")
    asked(other, b"X", b"X" + END, "letter b")
    asked(one, b"N", imperial, "after X on the other connector")
    asked(one, b"D", METRIC, "after X on the other connector")
    one.quiet("after all was asked", 0.05)
    other.quiet("after all was asked", 0.05)
