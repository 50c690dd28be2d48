"""Makes the streams of packed records that tests/transfer/run turns to text, and what must come of each. Written from document 01 and
the requests alone.

records.py FOLDER COUNT SEED: the files below, in which MODE is plain or checksum.

- MODE.packed, MODE.text: the same records in both forms, so many of them. minus: which of them have a pupil of minus zero, 60 40.
- damaged.MODE: MODE.packed with every tenth message damaged. damaged.MODE.text: what comes of the others. damaged.MODE.told: place,
  number and value of each that is refused, a line each."""
import os
import random
import sys

END = b"\n\r"

# where a field starts in a packed record, and bytes there that are out of its range or no field; not of the tenth, whose byte has a bit of
# the stop
STARTS = {1: 0, 2: 5, 3: 7, 4: 8, 5: 9, 6: 11, 7: 15, 8: 19, 9: 23, 10: 25, 11: 27, 12: 29}
WRONG = {
    1: ["44", "44 40 40 40 40", "64 66 49 5A 40", "64 7F 7F 7F 7F", "64 00", "64 40 40 40 8C"],
    2: ["3F", "80", "C0 40", "40 3F", "40 0A"],
    3: ["38", "78", "FB C5", "FF C0", "E5 85", "E9 80", "EF 89", "81 C1"],
    5: ["50 40", "7F 7F", "00", "4F 80"],
    6: ["66 49 5A 40", "7F", "40 40 40 0D", "C0"],
    7: ["66 49 5A 40", "7F", "40 40 3F", "0A"],
    8: ["66 49 5A 40", "7F", "40 80", "20"],
    9: ["3F", "BF", "40 00", "7F FF"],
    10: ["6F 68", "4F 68", "50 40", "70 40", "20 40", "E0 40", "60 C0", "60 00"],
    11: ["4F 69", "50 40", "7F 7F", "40 BF", "0D"],
    12: ["73", "53 1F", "53 20 7F", "53 20 20 00", "53 20 20 20 0A", "53 20 20 20 20 0D", "53 7E 7E 7E 7E 7E 7E 7E 7E FF"],
}


def groups(number, count):
    """A number in groups of six bits, highest first, each under 01."""
    return bytes(0x40 + (number >> 6 * place) % 64 for place in reversed(range(count)))


def sealed(body, checksum):
    """The body with its ending."""
    if not checksum:
        return body + END
    total = 0xFF
    for byte in body:
        total ^= byte
    return body + bytes([0x40 + total // 16, 0x40 + total % 16]) + END


class Record:
    """A record as both forms have it, without their endings; is_minus: its pupil is minus zero."""

    def __init__(self, chance):
        below = chance.randrange
        focus, hyperfocal, near, far = (below(10 ** chance.choice([1, 4, 7, 7])) for _ in range(4))
        aperture, focal, view, zoom, tenth = below(4096), below(1024), below(4096), below(1001), below(10)
        stop = below(100) if below(3) else 10 * (10 + below(16))
        pupil = 1 + below(999) if below(50) else 0
        sign = below(2)
        serial = bytes(0x20 + below(95) for _ in range(9))
        self.is_minus = pupil == 0 and sign == 1
        self.packed = b"".join([
            b"d", groups(focus, 4), groups(aperture, 2), bytes([0x80 + stop % 128, 0x80 + 0x40 * (stop // 128) + tenth]),
            groups(focal, 2), groups(hyperfocal, 4), groups(near, 4), groups(far, 4), groups(view, 2),
            bytes([0x40 + 0x20 * sign + pupil // 64, 0x40 + pupil % 64]), groups(zoom, 2), b"S", serial])
        stop = f"{stop // 10}.{stop % 10}" if stop < 100 else f"{stop // 10}."
        self.text = (
            f"D{focus:07}T{aperture:04}t{stop}+{tenth}Z{focal:04}H{hyperfocal:07}N{near:07}F{far:07}"
            f"V{view // 10:03}.{view % 10}E{'-' if sign and pupil else '+'}{pupil:03}z{zoom:04}S"
        ).encode() + serial


def put(body, place, text):
    return body[:place] + text + body[place + len(text):]


def with_wrong(chance, body, field):
    """The body with a wrong field, and no other wrong before it."""
    if field != 4:
        return put(body, STARTS[field], bytes.fromhex(chance.choice(WRONG[field])))
    byte = body[STARTS[4]]
    other = chance.choice([byte - 0x80, byte + 0x10, byte + 0x20, byte - byte % 16 + 10 + chance.randrange(6)])
    return put(body, STARTS[4], bytes([other]))


def damaged(chance, body, following, checksum):
    """The message with one damage, the number and value that it is refused with, and how many messages are in it: where its end is damaged
    the one that follows is a part of it."""
    message = sealed(body, checksum)
    place = chance.randrange(len(body))
    kind = chance.randrange(8 if checksum else 6)
    if kind == 0:  # a byte lost
        return message[:place] + message[place + 1:], 3, len(message) - 1, 1
    if kind == 1:  # a byte doubled
        return message[: place + 1] + message[place:], 3, len(message) + 1, 1
    if kind == 2:  # a field
        field = chance.randrange(1, 13)
        return sealed(with_wrong(chance, body, field), checksum), 6, field, 1
    if kind == 3:  # more than a cutter holds
        more = 161 - len(message) + chance.randrange(200)
        return message[:place] + b"x" * more + message[place:], 9, len(message) + more, 1
    if kind == 4:  # the other setting
        other = sealed(body, not checksum)
        return other, 3, len(other), 1
    if kind == 5:  # the end: LF, CR or both lost, or the wrong way round
        joined = message[:-2] + chance.choice([b"\r", b"\n", b"", b"\r\n", b"\n\n"]) + following
        return joined, 3, len(joined), 2
    if kind == 6:  # a bit of the checksum, else of what stands before it
        place = len(body) + chance.randrange(2)
    return put(message, place, bytes([message[place] ^ 1 << chance.randrange(8)])), 5, 0, 1


def main():
    folder, count, seed = sys.argv[1], int(sys.argv[2]), int(sys.argv[3])
    chance = random.Random(seed)
    records = [Record(chance) for _ in range(count)]

    def write(name, parts):
        with open(os.path.join(folder, name), "wb") as file:
            file.writelines(parts)

    write("minus", [f"{place}\n".encode() for place, record in enumerate(records) if record.is_minus])
    for mode, checksum in [("plain", False), ("checksum", True)]:
        packed = [sealed(record.packed, checksum) for record in records]
        text = [sealed(record.text, checksum) for record in records]
        write(f"{mode}.packed", packed)
        write(f"{mode}.text", text)

        stream, left, told, start, place = [], [], [], 0, 0
        while place < count:
            message, taken = packed[place], 1
            if place % 10 == 4:
                message, number, value, taken = damaged(chance, records[place].packed, packed[place + 1], checksum)
                told.append(f"{start} {number} {value}\n".encode())
            else:
                left.append(text[place])
            stream.append(message)
            start += len(message)
            place += taken
        write(f"damaged.{mode}", stream)
        write(f"damaged.{mode}.text", left)
        write(f"damaged.{mode}.told", told)


main()
