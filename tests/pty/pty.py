"""Talks to the lens on its serial device as an ordinary serial client: a raw terminal at 115200 bits a second; then heron-bench, the program
named in the argument, records from it. Then on two devices, the lens's two connectors, at once."""
import contextlib
import os
import signal
import subprocess
import sys
import tempfile
import termios
import tty

sys.path.insert(0, os.path.join(os.path.dirname(os.path.abspath(__file__)), "..", "driver"))
import record
from ports import asked, beside, greeted, letters
from talk import END, RECORD, ROOT, Talk, Wrong, commands, continuous


@contextlib.contextmanager
def lens(*words):
    """lens-pty with these words, which end with its links: it prints those, and has removed them where Ctrl-C has ended it."""
    links = [word for word in words if word.startswith("/")]
    server = subprocess.Popen([os.path.join(ROOT, "tools", "lens-pty"), *words], stdout=subprocess.PIPE, start_new_session=True)
    try:
        for link in links:
            told = server.stdout.readline().decode().strip()
            if told != link:
                raise Wrong(f"lens-pty: awaited the device's name {link!r}, came {told!r}")
        yield
        os.killpg(server.pid, signal.SIGINT)
        if server.wait(20) != 0:
            raise Wrong(f"lens-pty: Ctrl-C ended it with status {server.returncode}")
        for link in links:
            if os.path.lexists(link):
                raise Wrong(f"lens-pty: {link} is left over after Ctrl-C")
    finally:
        if server.poll() is None:
            os.killpg(server.pid, signal.SIGTERM)
            server.wait()


def opened(path):
    """The device, raw, 8 bits, no parity, 115200; what has come already stays."""
    device = os.open(path, os.O_RDWR | os.O_NOCTTY)
    tty.setraw(device, termios.TCSANOW)
    modes = termios.tcgetattr(device)
    modes[4] = modes[5] = termios.B115200
    termios.tcsetattr(device, termios.TCSANOW, modes)
    return device


def talked(path):
    first = opened(path)
    talk = Talk(first, first)
    commands(talk)
    continuous(talk)
    os.close(first)
    # a second client finds the lens as the first left it
    second = opened(path)
    again = Talk(second, second)
    again.send(b"B\r")
    again.awaits(b"B 4.34\n\r", "'B' of a second client")
    os.close(second)
    return talk.exchanges + again.exchanges


def talked_at_once(bench, links):
    """A client on each connector; then heron-bench records on one while the other sends."""
    camera, external = (Talk(device, device) for device in map(opened, links))
    greeted(camera)
    greeted(external)
    beside(camera, external)
    beside(external, camera)
    asked(camera, b"C", b"!" + END + RECORD, "before a recording")
    os.close(external.sends)
    record.Record(bench, "-n", "5", "-u", "I", links[1]).ends(0, record.report(links[1], "text", 76, 5), "records: 5, refused: 0\n")
    camera.send(b"H\r")
    camera.reaches(b"!" + END, "'H' after a recording on the other connector")
    os.close(camera.sends)
    return camera.exchanges + external.exchanges


def started_again(links):
    """From a start the lens knows nothing of what was asked before; its letter is B."""
    camera, external = (Talk(device, device) for device in map(opened, links))
    letters(external, camera)
    for talk in camera, external:
        os.close(talk.sends)
    return camera.exchanges + external.exchanges


def names_refused(folder):
    """A name that is there already, a folder that is not, one name twice, three names, no name, a letter that is none: said, and nothing is made."""
    there, free = folder, os.path.join(folder, "free")
    for status, names in (1, [there]), (1, [free, there]), (1, [free, os.path.join(folder, "none", "lens")]), (1, [free, free]), (2, ["a", "b", "c"]), \
            (2, [free, ""]), (2, ["-l", "Z", free]):
        run = subprocess.run([os.path.join(ROOT, "tools", "lens-pty"), *names], capture_output=True, timeout=60)
        if (run.returncode, run.stdout) != (status, b"") or not run.stderr.startswith((b"lens-pty: ", b"usage: ")) or os.path.lexists(free):
            raise Wrong(f"lens-pty {' '.join(names)}: status {run.returncode}, {run.stdout!r}, {run.stderr!r}")


def main():
    bench = sys.argv[1]
    with tempfile.TemporaryDirectory() as folder:
        links = [os.path.join(folder, "lens"), os.path.join(folder, "external")]
        try:
            with lens(links[0]):
                one = talked(links[0])
                record.on_the_lens(bench, links[0], opened)
                record.scripted(bench)
                record.typed(bench)
            with lens(*links):
                both = talked_at_once(bench, links)
            with lens("-l", "B", *links):
                both += started_again(links)
            names_refused(folder)
        except Wrong as wrong:
            print(f"pty: {wrong}")
            return 1
    print(f"pty: {one} answers through the serial device and {both} through those of both connectors at once, byte for byte; records and a command"
          " together; heron-bench records; Ctrl-C ends it")
    return 0


sys.exit(main())
