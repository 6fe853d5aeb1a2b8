"""A program run as a process: input in pieces, timed answers, and its peak memory."""
import fcntl
import os
import select
import struct
import subprocess
import tempfile
import termios
import threading
import time

# seconds for a whole run, and for one answer
PATIENCE = 120
PROMPT = 10


class Fault(Exception):
    """What a check found wrong."""


def expect(holds, what):
    if not holds:
        raise Fault(what)


def same(printed, due, what="output"):
    """Fails with the first place where two outputs part."""
    if printed != due:
        at = next((i for i, pair in enumerate(zip(printed, due)) if pair[0] != pair[1]), min(len(printed), len(due)))
        shown = [each[max(0, at - 20) : at + 20] for each in (printed, due)]
        raise Fault(f"{what}: {len(printed)} bytes for {len(due)}, byte {at}: {shown[0]} for {shown[1]}")


class Process:
    """A started program whose ends are the pipes given; one that hangs is killed, and then its status is a signal's."""

    def __init__(self, command, patience=PATIENCE, **options):
        self.messages = tempfile.TemporaryFile()
        options = {"stdin": subprocess.PIPE, "stdout": subprocess.PIPE, "stderr": self.messages, "bufsize": 0} | options
        self.child = subprocess.Popen(command, **options)
        self.given, self.printed = self.child.stdin, self.child.stdout
        self.watch = threading.Timer(patience, self.hangs)
        self.hung, self.feeder = False, None
        self.watch.start()

    def hangs(self):
        self.hung = True
        self.child.kill()

    def __enter__(self):
        return self

    def __exit__(self, *_):
        self.child.kill()
        self.child.wait()
        self.watch.cancel()
        if self.feeder:
            self.feeder.join(5)
        for end in (self.given, self.printed, self.messages):
            if end:
                end.close()

    def give(self, data):
        """Writes all of it; answers whether the program took it, and did not close its end."""
        left = memoryview(data)
        try:
            while left:
                left = left[os.write(self.given.fileno(), left) :]
        except BrokenPipeError:
            return False
        return True

    def give_alone(self, piece):
        """Writes a piece when all before it has been read, so that it comes by a read of its own."""
        while struct.unpack("i", fcntl.ioctl(self.given, termios.FIONREAD, b"\0" * 4))[0]:
            if self.child.poll() is not None:
                return False
        return self.give(piece)

    def end_input(self):
        self.given.close()

    def feed(self, pieces):
        """Gives the pieces and the end of the input while others read; the thread lives until all is given."""

        def give_all():
            all(self.give(piece) for piece in pieces)
            self.end_input()

        self.feeder = threading.Thread(target=give_all, daemon=True)
        self.feeder.start()
        return self.feeder

    def take(self, count, patience=PROMPT):
        """Exactly so many bytes of output, or what came of them in time."""
        taken, end = b"", time.monotonic() + patience
        while len(taken) < count:
            if not select.select([self.printed], [], [], max(0, end - time.monotonic()))[0]:
                break
            piece = os.read(self.printed.fileno(), count - len(taken))
            if not piece:
                break
            taken += piece
        return taken

    def take_rest(self):
        return b"".join(iter(lambda: os.read(self.printed.fileno(), 1 << 20), b""))

    def peak(self):
        """Peak resident KiB of the running program, 0 when it has ended; rusage would count in who started it."""
        with open(f"/proc/{self.child.pid}/status", encoding="ascii") as status:
            return next((int(line.split()[1]) for line in status if line.startswith("VmHWM")), 0)

    def ended(self):
        """Waits for the end: the status, and what stands on standard error."""
        status = self.child.wait()
        expect(not self.hung, "the program hangs")
        self.messages.seek(0)
        return status, self.messages.read()

    def ended_well(self):
        status, messages = self.ended()
        expect((status, messages) == (0, b""), f"status {status}, on standard error: {messages}")


def output_of(command, given, **options):
    """What the program prints when all input is given at once."""
    with Process(command, **options) as process:
        process.feed([given])
        printed = process.take_rest()
        process.ended_well()
        return printed
