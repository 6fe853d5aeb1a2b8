"""Random call lines for the two calls programs: histories of a farm, broken rosters, damaged tables, wrong lengths."""
import heapq
from fractions import Fraction

MOST = 4294967295


def quotas(hosts, slots):
    """The greedy step of document 01, Quotas; only to make tables that belong."""
    held = dict.fromkeys(hosts, 0)
    next_claims = [(Fraction(1, rate), host) for host, rate in sorted(hosts.items())]
    heapq.heapify(next_claims)
    for _ in range(slots if hosts else 0):
        _, host = next_claims[0]
        held[host] += 1
        heapq.heapreplace(next_claims, (Fraction(held[host] + 1, hosts[host]), host))
    return held


class Calls:
    """Call lines as they are made. What it believes of the farm only steers the choice of calls."""

    def __init__(self, chance):
        self.chance, self.lines, self.count = chance, [], 0
        self.hosts, self.slots, self.top, self.rates = {}, 1, 12, 5
        self.belongs = False

    def set(self, *words):
        self.lines.append(" ".join(map(str, words)).encode())

    def call(self, *words):
        self.set(*words)
        self.count += 1

    # numbers, in range or, as often as bad says, anything

    def some_slots(self, bad):
        if self.chance.random() >= bad:
            return self.slots
        return self.chance.choice([0, 1, self.slots - 1, self.slots + 1, 16384, 16385, 65536 + self.slots, MOST])

    def some_host(self, bad):
        if self.chance.random() < bad:
            return self.chance.choice([0, 65535, 65536, 65536 + self.chance.randrange(1, 9), MOST])
        if self.hosts and self.chance.random() < 0.6:
            return self.chance.choice(list(self.hosts))
        return self.chance.randrange(1, self.top + 1)

    def some_rate(self, bad):
        if self.chance.random() < bad:
            return self.chance.choice([0, 1000000, 1000001, 65536, MOST])
        return self.chance.randrange(1, self.rates + 1)

    def some_event(self, bad):
        host, kind = self.some_host(bad), self.chance.choice(["add", "drop", "rate"])
        if self.chance.random() < 0.7:
            kind = self.chance.choice(["drop", "rate"]) if host in self.hosts else "add"
        return (kind, host) if kind == "drop" else (kind, host, self.some_rate(bad))

    # the calls

    def event(self, bad):
        slots, event = self.some_slots(bad), self.some_event(bad)
        self.call(event[0], slots, *event[1:])
        if self.belongs and slots == self.slots:
            self.believe(*event)

    def believe(self, kind, host, rate=1):
        if not (1 <= host <= 65535 and 1 <= rate <= 1000000 and (host in self.hosts) == (kind != "add")):
            return
        if kind == "drop":
            del self.hosts[host]
        elif kind == "rate" or len(self.hosts) < 256:
            self.hosts[host] = rate

    def ask(self, bad):
        self.call("ask", self.some_slots(bad), *self.some_event(bad), self.some_host(bad))

    def report(self, bad):
        length = len(self.hosts) if self.chance.random() >= 2 * bad else self.chance.choice([0, 1, 255, 256, 257, 300])
        length += (self.chance.random() < bad) - (self.chance.random() < bad)
        self.set("records", min(300, max(0, length)))
        if self.chance.random() < 0.3:
            self.set("stale", self.chance.randrange(min(300, max(0, length) + 2)), self.chance.randrange(65536),
                     self.chance.randrange(MOST + 1), self.chance.randrange(MOST + 1))
        self.call("report", self.some_slots(bad))

    def load(self, bad):
        good = self.chance.choice([1, 500, 1000, self.chance.randrange(1, 1001), self.chance.randrange(700, 1001)])
        self.call("load", self.some_slots(bad), self.chance.choice([0, 1001, MOST]) if self.chance.random() < bad else good)

    def find(self, bad):
        key = self.chance.randbytes(self.chance.randrange(20)).replace(b"\n", b" ")
        if self.chance.random() < 0.02:
            key = b"k" * self.chance.choice([4095, 4096, 4097, 5000])
        self.call("find", self.some_slots(bad), "")
        self.lines[-1] += key

    def check(self, bad):
        self.call("check", self.some_slots(bad))

    def layout(self, bad):
        self.call("layout", self.some_slots(bad))

    def any_calls(self, count, bad):
        """Calls of every kind; layouts are rare, since they tidy the table."""
        kinds = [self.event, self.ask, self.report, self.load, self.find, self.check, self.layout]
        for _ in range(count):
            self.chance.choices(kinds, [12, 4, 2, 2, 2, 2, 0.3])[0](bad)

    # farms

    def farm(self, slots, count, top, rates):
        """A new roster of count hosts, numbered up to top, with rates up to rates."""
        self.slots, self.top, self.rates = slots, top, rates
        numbers = sorted(self.chance.sample(range(1, top + 1), count))
        self.hosts = {host: self.chance.randrange(1, rates + 1) for host in numbers}
        self.set_roster()
        self.set("length", slots)

    def small_farm(self):
        top = self.chance.choice([2, 5, 12, 65535])
        count = self.chance.randrange(min(top, 9) + 1)
        self.farm(self.chance.choice([1, 2, 3, 10, 20, self.chance.randrange(1, 60)]), count, top,
                  self.chance.choice([1, 2, 5, 40, 1000000]))

    def set_roster(self):
        self.set("clear")
        for place, host in enumerate(sorted(self.hosts)):
            self.set("host", place, host, self.hosts[host])
        self.set("count", len(self.hosts))

    def tidy(self):
        self.call("layout", self.slots)
        self.belongs = True

    def shuffle(self):
        """A table that belongs, its owners in no order."""
        owners = [host for host, quota in quotas(self.hosts, self.slots).items() for _ in range(quota)] or [0] * self.slots
        self.chance.shuffle(owners)
        for slot, owner in enumerate(owners):
            self.set("fill", slot, slot + 1, owner)
        self.call("check", self.slots)
        self.belongs = True

    # what a round is made of

    def history(self):
        self.small_farm()
        self.chance.choice([self.tidy, self.shuffle])()
        self.any_calls(self.chance.randrange(10, 60), 0.03)

    def from_nothing(self):
        self.small_farm()
        self.hosts = {}
        self.set_roster()
        self.set("fill", 0, self.slots, 0)
        self.belongs = True
        self.any_calls(self.chance.randrange(5, 40), 0.03)

    def to_nothing(self):
        """Drops every host, the last one too, and goes on."""
        self.small_farm()
        self.tidy()
        for host in self.chance.sample(list(self.hosts), len(self.hosts)):
            self.call("drop", self.slots, host)
        self.hosts = {}
        self.any_calls(5, 0.03)

    def broken_roster(self):
        self.small_farm()
        self.tidy()
        self.break_roster(len(self.hosts))
        self.belongs = False
        self.any_calls(self.chance.randrange(5, 20), 0.1)

    def break_roster(self, count):
        how, place = self.chance.randrange(6), self.chance.randrange(max(1, count))
        number, rate = self.chance.choice(list(self.hosts.items()) or [(1, 1)])
        if how == 0:
            self.set("count", self.chance.choice([257, 258, 300, 65536, 65536 + count, MOST]))
        elif how == 1:
            self.set("count", max(0, count + self.chance.choice([-1, 1])))
        elif how == 2:
            self.set("host", self.chance.randrange(count, 256), *self.chance.choice([(number, 0), (0, rate), (65535, 1)]))
        elif how == 3:
            self.set("host", place, number, self.chance.choice([0, 1000001, MOST]))
        elif how == 4:
            self.set("host", place, 0, rate)
        else:
            self.set("host", self.chance.randrange(count + 1), number, rate)

    def damaged_table(self):
        self.small_farm()
        self.chance.choice([self.tidy, self.shuffle])()
        for _ in range(self.chance.randrange(1, 4)):
            slot = self.chance.randrange(self.slots)
            owner = self.chance.choice([0, self.some_host(0), 65535])
            self.set("fill", slot, self.chance.randrange(slot + 1, self.slots + 1), owner)
            self.check(0)
        self.belongs = False
        self.any_calls(self.chance.randrange(3, 12), 0.05)
        self.tidy()
        self.any_calls(5, 0.05)

    def wrong_length(self):
        self.small_farm()
        self.tidy()
        self.set("length", self.chance.choice([0, self.slots - 1, self.slots + 1, 16384, 16385, 16500]))
        self.belongs = False
        for _ in range(self.chance.randrange(2, 6)):
            self.any_calls(1, 0.3)
        self.set("length", self.slots)
        self.any_calls(3, 0.1)

    def unknown(self):
        self.set(self.chance.choice(["note", "checks 20", "hosts 1 2 3", "# add 20 1 1", "Check 20"]))

    def crowded(self):
        """Around 256 hosts and some hundreds of slots; the last adds find the roster full."""
        self.farm(self.chance.randrange(100, 500), self.chance.choice([254, 255, 256]), self.chance.choice([300, 65535]),
                  self.chance.choice([2, 1000, 1000000]))
        self.tidy()
        self.any_calls(25, 0.03)
        for host in self.chance.sample(range(1, self.top + 1), 12):
            self.call("ask", self.slots, "add", host, 2, host)
            self.call("add", self.slots, host, 2)
            self.believe("add", host, 2)

    def full(self):
        """256 hosts and 16,384 slots."""
        self.farm(16384, 256, 400, self.chance.choice([3, 1000000]))
        self.tidy()
        self.any_calls(25, 0.03)
        self.farm(16384, 250, 65535, 1000000)
        self.shuffle()
        self.any_calls(10, 0.03)


MIXED = [(Calls.history, 10), (Calls.from_nothing, 4), (Calls.to_nothing, 2), (Calls.broken_roster, 6), (Calls.damaged_table, 5),
         (Calls.wrong_length, 3), (Calls.unknown, 2), (Calls.crowded, 0.4)]


def make(chance, count):
    """The lines of one round: count calls or a few more, two full farms among every 10,000."""
    made = Calls(chance)
    fulls = 0
    while made.count < count:
        if made.count >= 2500 + 5000 * fulls:
            made.full()
            fulls += 1
        chance.choices([kind for kind, _ in MIXED], [weight for _, weight in MIXED])[0](made)
    return made.lines
