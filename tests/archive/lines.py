"""Makes the archives that tests/archive/run moves, and what must come of each. Written from the request and document 000's notes alone.

lines.py FOLDER COUNT SEED: the files below, each of so many lines.

- plain.old, plain.new: the same records in both forms, every hundredth of the zoom and pupils of both signs among them, none -000.
- minus.old, minus.new: with -000 in every seventh line. plus.old, plus.new: the same with +000 there. NAME.places: where those signs
  stand, as cmp -l tells that they are changed.
- damaged.old, damaged.new: every tenth line damaged. NAME.moved: what comes of the others. NAME.told: place, number and value of
  each damaged one, a line each."""
import os
import random
import sys

SERIAL = "4050.0093"
END = "\n\r"

# where a field's tag stands, and what is out of its range or no number
TAGS = {1: 0, 2: 8, 3: 13, 4: 17, 5: 19, 6: 24, 7: 32, 8: 40, 9: 48, 10: 54, 11: 59, 12: 64}
WRONG = {1: "D00x0798", 2: "T4096", 3: "t26.", 4: "+:", 5: "Z1024", 6: "H000 123", 7: "n0000711", 8: "F-000909", 9: "V409.6", 10: "E 000"}
WRONG_OLD_ZOOM = ["z1.01", "z1.10", "z9.99", "z.570", "z057.", "z0,57", "z0570", "z0.5x", "Z0.57"]
WRONG_NEW_ZOOM = ["z1001", "z9999", "z0.57", "z057x", "Z0570"]


class Record:
    """Fields 1 to 10 as text, and the zoom in hundredths."""

    def __init__(self, chance, place):
        below = chance.randrange
        stop = below(100) if below(3) else 10 * (10 + below(16))
        stop = f"{stop // 10}.{stop % 10}" if stop < 100 else f"{stop // 10}."
        view = below(4096)
        self.front = (
            f"D{below(10_000_000):07}T{below(4096):04}t{stop}+{below(10)}Z{below(1024):04}H{below(10_000_000):07}"
            f"N{below(10_000_000):07}F{below(10_000_000):07}V{view // 10:03}.{view % 10}"
        )
        self.pupil = f"E{'+' if below(2) else '-'}{1 + below(999):03}" if below(50) else "E+000"
        self.hundredths = place % 101 if place < 1010 else below(101)

    def old(self):
        return f"{self.front}{self.pupil}z{self.hundredths // 100}.{self.hundredths % 100:02}{END}"

    def new(self):
        return f"{self.front}{self.pupil}z{self.hundredths:03}0S{SERIAL}{END}"


def put(line, place, text):
    return line[:place] + text + line[place + len(text):]


def damaged(chance, line, is_old):
    """The line with one damage that leaves it one message, and the number and value that it is refused with."""
    body = line[: -len(END)]
    place = chance.randrange(len(body))
    kind = chance.randrange(6 if is_old else 7)
    if kind == 0:  # a byte lost
        return body[:place] + body[place + 1:] + END, 3, len(line) - 1
    if kind == 1:  # a byte doubled
        return body[: place + 1] + body[place:] + END, 3, len(line) + 1
    if kind == 2:  # a tag
        field = chance.randrange(1, 12 if is_old else 13)
        return put(line, TAGS[field], "?"), 6, field
    if kind == 3:  # a field
        field = chance.randrange(1, 11)
        return put(line, TAGS[field], WRONG[field]), 6, field
    if kind == 4:  # the zoom
        return put(line, TAGS[11], chance.choice(WRONG_OLD_ZOOM if is_old else WRONG_NEW_ZOOM)), 6, 11
    if kind == 5:  # more than a cutter holds
        more = 161 - len(line) + chance.randrange(200)
        return body[:place] + "x" * more + body[place:] + END, 9, len(line) + more
    number, value = (6, 11) if line[TAGS[11] + 1] == "1" else (11, 0)  # thousandths, past 1000 or lost
    return put(line, TAGS[11] + 4, chance.choice("123456789")), number, value


def main():
    folder, count, seed = sys.argv[1], int(sys.argv[2]), int(sys.argv[3])
    chance = random.Random(seed)
    records = [Record(chance, place) for place in range(count)]

    def write(name, lines):
        with open(os.path.join(folder, name), "w", encoding="ascii", newline="") as file:
            file.writelines(lines)

    forms = {"old": Record.old, "new": Record.new}
    for form, line in forms.items():
        write(f"plain.{form}", map(line, records))

        lines, left, told, start = [], [], [], 0
        for place, record in enumerate(records):
            text = line(record)
            if place % 10 == 9:
                text, number, value = damaged(chance, text, form == "old")
                told.append(f"{start} {number} {value}\n")
            else:
                left.append(record)
            start += len(text)
            lines.append(text)
        write(f"damaged.{form}", lines)
        write(f"damaged.{form}.moved", map(forms["new" if form == "old" else "old"], left))
        write(f"damaged.{form}.told", told)

    signs = range(3, count, 7)
    for name, pupil in [("plus", "E+000"), ("minus", "E-000")]:
        for place in signs:
            records[place].pupil = pupil
        for form, line in forms.items():
            write(f"{name}.{form}", map(line, records))
    for form, length in [("old", 66), ("new", 76)]:
        write(f"minus.{form}.places", [f"{length * place + TAGS[10] + 2} 55 53\n" for place in signs])


main()
