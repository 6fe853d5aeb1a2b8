"""Checks what a calls program prints against what no call may change, without knowing any rule of quotas or moves.

A refused call leaves roster, table and list as they were and answers zeros; an accepted one changes only what it may write;
an event's moved count is the number of slots that changed.
"""
from itertools import groupby

WRITES = {"layout": {"table"}, "report": {"list"}, "add": {"roster", "table"}, "drop": {"roster", "table"},
          "rate": {"roster", "table"}, "check": set(), "ask": set(), "load": set(), "find": set()}
REPLIES = {"add": "event", "drop": "event", "rate": "event"}
PARTS = ["roster", "table", "list"]


class Memory:
    """The state of a calls program, from the set lines and from what was printed last."""

    def __init__(self):
        self.places, self.count = {}, 0
        self.owners, self.length = [0] * 16500, 0
        self.records, self.used = ["0:0:0"] * 300, 0

    def set(self, word, numbers):
        if word == "host":
            self.places[numbers[0]] = f"{numbers[1]}:{numbers[2]}"
        elif word == "count":
            self.count = numbers[0]
        elif word == "clear":
            self.places, self.count = {}, 0
        elif word == "length":
            self.length = numbers[0]
        elif word == "fill":
            self.owners[numbers[0]:numbers[1]] = [numbers[2]] * (numbers[1] - numbers[0])
        elif word == "records":
            self.used = numbers[0]
        elif word == "stale":
            self.records[numbers[0]] = ":".join(map(str, numbers[1:]))

    def shown(self):
        places = [f"{place}:{self.places[place]}" for place in sorted(self.places) if self.places[place] != "0:0"]
        runs = [f"{len(list(run))}*{owner}" for owner, run in groupby(self.owners[:self.length])]
        return {"roster": " ".join(["roster", str(self.count)] + places), "table": " ".join(["table"] + runs),
                "list": " ".join(["list"] + self.records[:self.used])}

    def take(self, part, line):
        """Takes over a line that may rightly differ; the lengths in use are not the program's to change."""
        words = line.split(" ")[1:]
        if part == "roster":
            self.count = int(words[0])
            self.places = {int(place): rest for place, _, rest in (word.partition(":") for word in words[1:])}
        elif part == "table":
            runs = [word.split("*") for word in words]
            owners = [int(owner) for times, owner in runs for _ in range(int(times))]
            if len(owners) != self.length:
                raise ValueError("the table printed is not as long as the one in use")
            self.owners[:self.length] = owners
        else:
            if len(words) != self.used:
                raise ValueError("the list printed is not as long as the one in use")
            self.records[:self.used] = words

    def call(self, word, reply, printed):
        """Faults one call; reply is its first line, printed its other three."""
        name, answer, *rest = reply.split(" ")
        if name != REPLIES.get(word, word):
            raise ValueError("the reply is to another call")
        if answer != "0" and not (word == "check" and answer == "3") and any(value not in ("0", "no") for value in rest):
            raise ValueError("a refused call answers more than zeros")
        before, owners = self.shown(), self.owners[:self.length]
        may = WRITES[word] if answer == "0" else set()
        for part, line in zip(PARTS, printed):
            if line == before[part]:
                continue
            if part not in may:
                raise ValueError(f"{part} changed by a call that may not write it")
            self.take(part, line)
        if name == "event" and int(rest[0]) != sum(one != other for one, other in zip(owners, self.owners)):
            raise ValueError("moved is not the number of slots that changed")


def check(lines, output):
    """The first fault as a text, or None. lines are the call lines, output what the program printed for them."""
    printed = output.decode("latin-1").split("\n")
    memory, at = Memory(), 0
    for number, line in enumerate(lines, 1):
        word, *rest = line.decode("latin-1").split(" ")
        if word not in WRITES:
            memory.set(word, [int(each) for each in rest if each.isdigit()])
            continue
        try:
            memory.call(word, printed[at], printed[at + 1:at + 4])
        except (ValueError, IndexError) as fault:
            return f"call line {number}, {line[:60]!r}: {fault}; output line {at + 1}"
        at += 4
    return None if printed[at:] == [""] else f"{len(printed) - at - 1} lines printed beyond the last call"
