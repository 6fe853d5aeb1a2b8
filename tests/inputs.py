"""Random inputs of farmtable: whole traces, and traces spoilt, cut, padded or broken byte by byte."""

SPOILT = [b"", b" ", b"#", b"# note", b"op=move", b"op=", b"OP=ADD", b"slots=8", b"key=a", b"host=1", b"rate=1", b"\r", b"\0"]
BYTES = b"\n\n\n=#0189 \r\0\xff+-aop"


def number(chance, most):
    """A number from 1 to most, now and then one at or past a limit."""
    if chance.random() < 0.04:
        return chance.choice([0, most, most + 1, most + 2, 2 * most, 65536, 999999999])
    return chance.randrange(1, most + 1)


def key(chance):
    kind = chance.random()
    if kind < 0.03:
        return b"k" * chance.choice([4095, 4096, 4097, 8187, 8188])
    if kind < 0.3:
        return str(chance.randrange(100)).encode()
    return chance.randbytes(chance.randrange(24)).replace(b"\n", b"\r")


class Trace:
    """Builds the lines of a trace; knows the hosts it has put on, so that most records are accepted."""

    def __init__(self, chance, slots, hosts, top, rates):
        self.chance, self.hosts, self.top, self.rates = chance, hosts, top, rates
        self.on = []
        self.lines = [b"slots=%d" % slots]

    def change(self, kind, host, rate=None):
        self.lines += [b"op=" + kind, b"host=%d" % host]
        if rate is not None:
            self.lines.append(b"rate=%d" % rate)

    def add(self):
        host, rate = number(self.chance, self.top), number(self.chance, self.rates)
        self.change(b"add", host, rate)
        if 1 <= host <= 65535 and 1 <= rate <= 1000000 and host not in self.on and len(self.on) < 256:
            self.on.append(host)

    def pick(self):
        if not self.on or self.chance.random() < 0.05:
            return number(self.chance, self.top)
        return self.chance.choice(self.on)

    def drop(self):
        host = self.pick()
        self.change(b"drop", host)
        if host in self.on:
            self.on.remove(host)

    def find(self):
        self.lines += [b"op=find", b"key=" + key(self.chance)]

    def comment(self):
        self.lines.append(b"#" + key(self.chance))

    def record(self):
        kind = self.chance.random()
        if kind < 0.3:
            self.find()
        elif kind < 0.4:
            self.comment()
        elif kind < 0.55:
            self.change(b"rate", self.pick(), number(self.chance, self.rates))
        elif kind < 0.7 or len(self.on) > self.hosts:
            self.drop()
        else:
            self.add()

    def fill(self, records):
        for _ in range(records):
            self.record()
        return self


def small(chance):
    slots = chance.choice([1, 2, 3, 8, 20, chance.randrange(1, 80)])
    if chance.random() < 0.03:
        slots = chance.choice([0, 16384, 16385, 65544, 999999999])
    top = chance.choice([3, 12, 12, 40, 65535])
    rates = chance.choice([1, 3, 10, 50, 1000, 1000000])
    return Trace(chance, slots, top, top, rates).fill(chance.randrange(40))


def medium(chance):
    return Trace(chance, chance.randrange(100, 3000), 80, 65535, chance.choice([2, 30, 1000000])).fill(120)


def crowded(chance):
    """256 hosts, then some refused for want of room, then around 256."""
    trace = Trace(chance, chance.randrange(200, 700), 256, 65535, chance.choice([3, 100, 1000000]))
    while len(trace.on) < 256:
        trace.add()
    for _ in range(5):
        trace.add()
    return trace.fill(60)


def full(chance):
    """256 hosts and 16,384 slots."""
    trace = Trace(chance, 16384, 255, 300, chance.choice([3, 1000000]))
    for host in chance.sample(range(1, 301), 256):
        trace.change(b"add", host, chance.randrange(1, trace.rates + 1))
        trace.on.append(host)
    return trace.fill(30)


def whole(lines):
    return b"".join(line + b"\n" for line in lines)


def spoil_number(chance, tail):
    return chance.choice([
        b"0" + tail, b"0" + tail, b"00", b"", b"1" * 10, b"0" * 9, b"+" + tail, b"-" + tail, b" " + tail, tail + b" ", tail + b"\r",
        tail + b"x", b"%d" % (4294967296 + chance.randrange(9)), tail + b"0" * 8190])


def spoil_line(chance, line):
    head, _, tail = line.partition(b"=")
    if tail.isdigit() and chance.random() < 0.7:
        return head + b"=" + spoil_number(chance, tail)
    return chance.choice([
        line.upper(), b" " + line, line + b" ", line + b"\r", line[:-1], line + b"0", head + tail, head + b"==" + tail,
        head + b"=", line + b"x" * chance.choice([8185, 8192, 9000]), chance.choice(SPOILT)])


def spoilt(chance):
    lines = small(chance).lines
    at = chance.randrange(len(lines))
    kind = chance.random()
    if kind < 0.6:
        lines[at] = spoil_line(chance, lines[at])
    elif kind < 0.7:
        del lines[at]
    elif kind < 0.8:
        lines.insert(at, lines[at])
    elif kind < 0.9:
        lines.insert(at, chance.choice(SPOILT))
    else:
        lines[at:at + 2] = reversed(lines[at:at + 2])
    return whole(lines)


def cut(chance):
    made = whole(small(chance).lines)
    return made[:chance.randrange(len(made))]


def mutated(chance):
    made = bytearray(whole(small(chance).lines))
    for _ in range(chance.randrange(1, 4)):
        at, byte = chance.randrange(len(made)), chance.choice(BYTES)
        how = chance.randrange(3)
        made[at:at + (how > 0)] = bytes([byte]) if how < 2 else b""
        made = made or bytearray(b"\n")
    return bytes(made)


def noise(chance):
    start = chance.choice([b"", b"slots=8\n", b"slots=8\nop=find\nkey="])
    return start + chance.choice([chance.randbytes(chance.randrange(3000)), bytes(chance.choices(BYTES, k=chance.randrange(40)))])


def padded(chance):
    """Comments until just before, at or after a round length, so that lines fall across the edges of a reader's buffer."""
    lines = small(chance).lines
    edge = chance.choice([4096, 8192, 16384, 65536, 131072]) + chance.randrange(-12, 4)
    length = len(lines[0]) + 1
    pads = []
    while length < edge:
        pads.append(b"#" + b"." * min(edge - length - 2, chance.choice([10, 100, 5000, 8191])))
        length += len(pads[-1]) + 1
    return whole(lines[:1] + pads + lines[1:])


MIXED = [(small, 30), (spoilt, 30), (cut, 12), (mutated, 15), (noise, 6), (padded, 7)]


def make(chance, index):
    """The large kinds come at fixed places, so that every round of 300 holds some and stays short."""
    if index % 300 == 150:
        kind = full
    elif index % 100 == 50:
        kind = crowded
    elif index % 20 == 10:
        kind = medium
    else:
        kind = chance.choices([kind for kind, _ in MIXED], [weight for _, weight in MIXED])[0]
    made = kind(chance)
    return made if isinstance(made, bytes) else whole(made.lines)
