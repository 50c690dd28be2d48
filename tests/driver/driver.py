"""Talks to the driver program through pipes: with an input that does not wait, as a line gives it, and with one that does; then to both connectors
of the lens at once."""
import fcntl
import os
import subprocess
import sys
import termios
import time

from ports import ANSWERS, asked, beside, greeted, letters
from talk import END, PATIENCE, RECORD, ROOT, Talk, Wrong, commands, continuous, timed

PROGRAM = [os.path.join(ROOT, "tools", "x86-64"), "run", os.path.join(ROOT, "crates", "driver", "out", "driver")]
# demand 3: the last byte of a reply leaves at or before this slot after the carriage return
REPLY_GONE = 233


def started(waits):
    """The driver, and a conversation with it."""
    inner, sends = os.pipe()
    os.set_blocking(inner, waits)
    program = subprocess.Popen(PROGRAM, stdin=inner, stdout=subprocess.PIPE)
    os.close(inner)
    return program, Talk(program.stdout.fileno(), sends)


def ticks(program):
    """The processor time that the program has used, in hundredths of a second."""
    with open(f"/proc/{program.pid}/stat", encoding="ascii") as file:
        fields = file.read().rsplit(")", 1)[1].split()
    return int(fields[11]) + int(fields[12])


def rests(program, most):
    """With nothing to do the program uses at most so many hundredths of half a second."""
    before = ticks(program)
    time.sleep(0.5)
    if ticks(program) - before > most:
        raise Wrong(f"with nothing to do the driver used {ticks(program) - before} hundredths of half a second")


def ended(program, *talks):
    for talk in talks:
        os.close(talk.sends)
    if program.wait(20) != 0:
        raise Wrong(f"at the end of its input the driver ended with status {program.returncode}")


# ---- both connectors

def line():
    """A connector's pipes, that of what is sent a page long: the driver's ends, which do not wait, and a conversation over the others."""
    (gets, sends), (receives, puts) = os.pipe(), os.pipe()
    for end in gets, puts:
        os.set_blocking(end, False)
    fcntl.fcntl(puts, fcntl.F_SETPIPE_SZ, os.sysconf("SC_PAGE_SIZE"))
    return gets, puts, Talk(receives, sends)


def started_both(*letter, **how):
    """The driver with both connectors, and a conversation with each."""
    (*camera, first), (*external, second) = line(), line()

    def connect():
        high = [fcntl.fcntl(end, fcntl.F_DUPFD_CLOEXEC, 10) for end in external]
        for end, number in zip(high, (3, 4)):
            os.dup2(end, number)

    words = [*PROGRAM, "ports", *letter]
    program = subprocess.Popen(words, stdin=camera[0], stdout=camera[1], preexec_fn=connect, close_fds=False, **how)
    for end in camera + external:
        os.close(end)
    return program, first, second


def full(talk):
    """Waits until the connector's line takes no more, since nobody reads; from then on its slots wait too. Hands back how many bytes are in it: all
    of its page, since it was read to its end before."""
    room = fcntl.fcntl(talk.receives, fcntl.F_GETPIPE_SZ)
    late = time.monotonic() + PATIENCE
    while int.from_bytes(fcntl.ioctl(talk.receives, termios.FIONREAD, bytes(4)), sys.byteorder) < room:
        if time.monotonic() > late:
            raise Wrong(f"while records run and nobody reads, a pipe of {room} bytes is not filled")
        time.sleep(0.01)
    return room


def bounded(talk, other):
    """Replies leave within their slots, counted in bytes: a command is sent while the line is full, and once it is read again a slot comes before
    each byte of the command. The other connector answers while this one's line is full. The latest reply's slot."""
    asked(talk, b"Kb7", b"Kb7!" + END, "in running")
    asked(talk, b"C", b"!" + END, "at rate 7")
    came, latest = b"", 0
    for command, answer in ANSWERS:
        came = talk.records("before its line is full", came)
        taken = talk.count + full(talk) + len(command + b"\r")
        asked(other, *ANSWERS[0], "beside a line that is full")
        talk.send(command + b"\r")
        came = talk.reaches(answer, f"{command!r} while records run at rate 7", came)
        latest = max(latest, talk.count - len(came) - taken)
    if latest > REPLY_GONE:
        raise Wrong(f"while records run a reply left in slot {latest} after its carriage return")
    talk.send(b"H\r")
    talk.reaches(b"!" + END, "'H' while records run at rate 7", came)
    asked(talk, b"Kb6", b"Kb6!" + END, "after 'H'")
    return latest


def paces(slow, fast):
    """A rate is one connector's own: at rate 0 it sends a byte where the other, at rate 6, sends twelve, and neither is faster than its line."""
    asked(slow, b"Kb0", b"Kb0!" + END, "in running")
    began = time.monotonic()
    counts = []
    for talk in slow, fast:
        asked(talk, b"C", b"!" + END, "at its own rate")
        counts.append(talk.count)
    came = {slow: b"", fast: b""}
    while slow.count - counts[0] < 800:
        for talk in came:
            came[talk] = talk.records("at two rates", came[talk])
    seconds = time.monotonic() - began
    few, many = slow.count - counts[0], fast.count - counts[1]
    if few > seconds * 960 + 100 or many > seconds * 11520 + 100 or many < 6 * few:
        raise Wrong(f"at rates 0 and 6 came {few} and {many} bytes in {seconds:.3f} s")
    for talk in came:
        talk.send(b"H\r")
        talk.reaches(b"!" + END, "'H' at its own rate", came[talk])


def inputs_end(program, camera, external):
    """Where an input ends, its connector goes on being sent to, and the other is served; where both have ended, the program ends."""
    asked(camera, b"C", b"!" + END, "before its input ends")
    os.close(camera.sends)
    asked(external, *ANSWERS[0], "after the other input's end")
    camera.awaits(RECORD * 100, "after its input's end")
    ended(program, external)


def line_gone():
    """Where nobody can read a connector's line any more, the other is served, and the end of its input ends the program."""
    program, camera, external = started_both(restore_signals=False)
    try:
        greeted(camera)
        os.close(external.receives)
        external.send(b"N\r")
        asked(camera, *ANSWERS[0], "without the other connector")
        ended(program, camera)
    finally:
        program.kill()
    return camera.exchanges


def conversations(waits):
    """With one port."""
    program, talk = started(waits)
    try:
        commands(talk)
        if not waits:
            continuous(talk)
            timed(talk, 6, 115200)
            timed(talk, 0, 9600)
        rests(program, 5)
        ended(program, talk)
    except Wrong as wrong:
        raise Wrong(f"input that {'waits' if waits else 'does not wait'}: {wrong}") from wrong
    finally:
        program.kill()
    return talk.exchanges


def conversations_at_once():
    """With both connectors; the latest slot of a reply too."""
    program, camera, external = started_both()
    try:
        commands(camera)
        greeted(external)
        asked(camera, b"H", b"!" + END, "after inhibit and checksum")
        beside(camera, external)
        beside(external, camera)
        latest = max(bounded(camera, external), bounded(external, camera))
        paces(camera, external)
        asked(camera, b"Kb6", b"Kb6!" + END, "after rate 0")
        paces(external, camera)
        rests(program, 10)
        inputs_end(program, camera, external)
    except Wrong as wrong:
        raise Wrong(f"both connectors: {wrong}") from wrong
    finally:
        program.kill()
    return camera.exchanges + external.exchanges, latest


def letter_shared():
    program, camera, external = started_both("B")
    try:
        letters(camera, external)
        ended(program, camera, external)
    except Wrong as wrong:
        raise Wrong(f"start-up letter B: {wrong}") from wrong
    finally:
        program.kill()
    return camera.exchanges + external.exchanges


def refused(*words):
    """Another start-up letter is refused, and nothing is sent."""
    run = subprocess.run([*PROGRAM, *words], stdin=subprocess.DEVNULL, capture_output=True, timeout=PATIENCE)
    if (run.stdout, run.stderr) != (b"", b"driver: the start-up letter is none of I, M, B, b\n"):
        raise Wrong(f"driver {' '.join(words)}: {run.stdout!r}, {run.stderr!r}")


def main():
    try:
        one = conversations(False) + conversations(True)
        both, latest = conversations_at_once()
        both += letter_shared() + line_gone()
        refused("Z")
        refused("ports", "Z")
    except Wrong as wrong:
        print(f"driver: {wrong}")
        return 1
    print(f"driver: {one} answers awaited, each before the next byte was sent, and {both} on both connectors at once; none missing, none else; while"
          f" records run the latest left in slot {latest} of {REPLY_GONE}")
    return 0


sys.exit(main())
