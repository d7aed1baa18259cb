#!/usr/bin/env python3
"""Schedules of single store calls, most of them drawn by a rule, and what `steps` says of each, by the plain, slow reader of
steps_model.py and steps_text.py.

    steps_table.py schedules     schedules, each behind a line that names the calls that fail, and before an empty line
    steps_table.py answers       what `steps` says of each, before an empty line
    steps_table.py say FILE      what it says of the schedule in this file
    steps_table.py calls FILE    the same, with the calls that each line makes

The stored run of crates/steps_bench compares the proved program with the first two."""
import sys

sys.dont_write_bytecode = True
from steps_model import CLOSED, COLLECTOR, COMPACTOR, EXPIRER, MOST, READER, WRITER, due, run_out, shown
from steps_text import Running, StoreFailed, lines_of, said_of, tell

# ---- schedules drawn by a rule

class Drawing:
    """Numbers by a rule, the same on each machine."""

    def __init__(self, seed):
        self.value = seed

    def below(self, bound):
        self.value = (self.value * 6364136223846793005 + 1442695040888963407) % 2**64
        return (self.value >> 33) % bound

    def of(self, *choices):
        return choices[self.below(len(choices))]

    def happens(self, percent):
        return self.below(100) < percent


class Drafting:
    """A schedule whose next line is drawn while the lines before it run, so that most of what it asks is near what is there."""

    def __init__(self, draw):
        self.draw, self.texts, self.moment, self.fails = draw, [], 0, {}
        while draw.happens(35) and len(self.fails) < 4:
            self.fails[9 + draw.below(50)] = draw.happens(50)
        self.running, self.ended = Running(self.fails), False

    def add(self, *texts):
        self.texts += texts
        if not self.ended:
            try:
                self.running.line(lines_of("\n".join(self.texts) + "\n")[-1][0])
            except StoreFailed:
                self.ended = True

    def state(self):
        return self.running.store.versions[self.running.store.last()][0]

    def near(self, low, high):
        """A number from one below low to one above high."""
        return max(0, low - 1 + self.draw.below(high - low + 3))

    def time(self):
        state = self.state()
        if self.draw.happens(2):
            return self.draw.of(MOST, MOST - 1)
        if self.draw.happens(50):
            return max(0, min(state.upper, 2 * MOST) - 1) if state.upper != CLOSED else state.since
        return self.near(state.since, min(state.upper, state.since + 40))

    def make(self, kind):
        name = kind[0].upper() + self.draw.of("", "a", "b", "c", "d", "e")
        if name in self.running.clients:
            name += self.draw.of("x", "y", "zz")
        if name not in self.running.clients:
            self.running.clients.pop(name, None)
            self.add(" ".join([kind, name] + [str(self.draw.of(8, 20, 60, 1000))] * (kind in (READER, COMPACTOR))))

    def append(self, name):
        draw, upper = self.draw, self.state().upper
        lower = upper if upper != CLOSED and draw.happens(88) else draw.below(30)
        new = CLOSED if draw.happens(2) else lower + draw.below(2) if draw.happens(8) else lower + 1 + draw.below(6)
        rows = []
        for _ in range(draw.of(0, 1, 1, 2, 2, 3)):
            time = lower + draw.below(7 if new == CLOSED else max(1, new - lower) + draw.happens(3))
            diff = draw.of(0, 2**62, 2**61, -(2**63)) if draw.happens(4) else draw.of(1, 1, 2, -1, 30)
            rows.append(f"{time} {diff} {draw.of('a', 'b', 'c', 'd e', '.')}")
        self.add(f"begin {name} append {lower} {shown(new)}", *rows, ".")

    def begin(self, name, client):
        draw = self.draw
        if client.kind == WRITER:
            if draw.happens(93):
                self.append(name)
            else:
                self.add(f"begin {name} close")
        elif client.kind == READER:
            ask = draw.of("snapshot", "snapshot", "snapshot", "listen", "next", "next", "next", "advance", "renew")
            ask = "close" if draw.happens(4) else "listen" if ask == "next" and client.listens is None and draw.happens(85) else ask
            self.add(f"begin {name} {ask}" + (f" {self.time()}" if ask in ("snapshot", "listen", "advance") else ""))
        elif client.kind == COMPACTOR:
            ask = "merge" if due(self.state().batches) is not None or draw.happens(20) else "renew"
            self.add(f"begin {name} {'close' if draw.happens(4) else ask}")
        elif client.kind == COLLECTOR:
            self.add(f"begin {name} collect")
        elif run_out(self.state(), self.moment) or draw.happens(20):
            self.add(f"begin {name} expire")

    def next(self):
        draw = self.draw
        going = [(name, client) for name, client in self.running.clients.items() if not client.stopped]
        opened = [(name, client) for name, client in going if client.command]
        which = draw.below(100)
        if which < 5:
            self.make(draw.of(WRITER, READER, COMPACTOR, COLLECTOR, EXPIRER))
        elif which < 10:
            self.moment += draw.of(0, 3, 10, 30, 70)
            self.add(f"moment {self.moment}")
        elif which < 12:
            self.add("head")
        elif which < 14 and len(going) > 3:
            name, client = draw.of(*going)
            client.stopped = True
            self.add(f"stop {name}")
        elif opened and draw.happens(60):
            self.add(f"step {draw.of(*opened)[0]} {draw.of(1, 1, 2, 3, 9, 9)}")
        elif going:
            name, client = draw.of(*going)
            if client.command is None or draw.happens(8):
                self.begin(name, client)
            elif draw.happens(3):
                self.add(f"step {name} 9")


def drafted(draw):
    """A schedule, and the calls that fail."""
    drafting = Drafting(draw)
    kinds = [WRITER, draw.of(WRITER, READER, COMPACTOR), draw.of(READER, COMPACTOR), draw.of(READER, COMPACTOR, COLLECTOR, EXPIRER)]
    for kind in kinds:
        drafting.make(kind)
    for _ in range(16 + draw.below(26)):
        drafting.next()
    if not drafting.ended and draw.happens(70):
        drafting.add("reader Z 1000")
        drafting.add(f"begin Z snapshot {drafting.time()}")
        drafting.add("step Z 40")
    return spoiled(draw, drafting.texts) if draw.happens(8) else drafting.texts, drafting.fails


def spoiled(draw, texts):
    """The same with a line too many, too few or another."""
    at, texts = draw.below(len(texts)), list(texts)
    line = texts[at]
    texts[at : at + 1] = draw.of([], [line, line], [line + " 1"], [line.replace(" ", "  ", 1)], [line[:-1] + "0"],
                                 [" ".join(line.split(" ")[:-1]) or "head"], ["begin " + line], [line.replace("1", "01")])
    return texts


def block(name, lower, upper, *rows):
    return [f"begin {name} append {lower} {upper}", *rows, "."]


def worked():
    """Schedules of which it is known what they say: a race; an append whose answer is lost; a collector that stops, and one
    that is slow; a reader whose lease runs out; an expirer a moment early; nothing left to merge."""
    x, y = block("A", 0, 5, "1 1 x") + ["step A 9"], block("A", 5, 10, "6 1 y") + ["step A 9"]
    merged = ["writer A", "compactor C 1000", "reader R 1000"] + x + y + ["begin C merge", "step C 9", "begin R renew", "step R 9"]
    ends = ["collector H", "begin H collect", "step H 9"]
    yield ["writer A", "writer B"] + block("A", 0, 10, "1 1 a") + block("B", 0, 10, "1 1 b") + ["step A 1", "step B 2", "step A 2"], {}
    yield (["writer A", "compactor C 100", "writer B"] + block("B", 0, 5, "1 1 x") + ["step B 9"] + block("A", 5, 10, "6 1 y")
           + ["step A 3", "begin C merge", "step C 9", "step A 2", "reader R 100", "begin R snapshot 9", "step R 9"], {11: True})
    yield merged + ["collector G", "begin G collect", "step G 2", "stop G"] + ends + ["begin R snapshot 9", "step R 9"], {}
    yield (merged + ["collector G", "begin G collect", "step G 1"] + block("A", 10, 15, "11 1 z") + ["step A 9", "begin C merge"]
           + ["step C 9", "begin R renew", "step R 9"] + ends + ["step G 9", "head", "begin R snapshot 14", "step R 9"], {})
    yield (["writer A", "compactor C 1000", "reader R 100"] + x + y + ["begin R snapshot 9", "step R 2", "moment 200", "expirer E"]
           + ["begin E expire", "step E 9", "begin C merge", "step C 9", "collector G", "begin G collect", "step G 9", "step R 9"], {})
    yield ["writer A", "reader R 100", "expirer E", "moment 99", "begin E expire", "step E 9", "moment 100", "begin E expire", "step E 9"], {}
    yield merged + ["begin C merge", "step C 9", "begin R listen 4", "step R 9", "begin R next", "step R 9"], {}
    # An append of two parts.
    many = block("A", 0, 5000, *[f"{time} 1 a" for time in range(4097)])
    yield ["writer A", "reader R 9"] + many + ["step A 2", "begin R snapshot 0", "step A 2", "step R 9", "begin R snapshot 4999"] + [
        "step R 2", "step R 9"], {}


def table():
    yield from worked()
    draw = Drawing(37)
    for _ in range(492):
        yield drafted(draw)


def main(what, *paths):
    if what in ("say", "calls"):
        with open(paths[0], encoding="latin-1", newline="") as text:
            said = said_of(text.read(), {}, tell if what == "calls" else None)
        if what == "say":
            sys.stdout.write("".join(line + "\n" for line in said))
        return
    for texts, fails in table():
        text = "".join(line + "\n" for line in texts)
        if what == "schedules":
            print(" ".join(["fails"] + [f"{at}{'+' if took else '-'}" for at, took in sorted(fails.items())]))
            print(text)
        else:
            print("".join(line + "\n" for line in said_of(text, fails)))


if __name__ == "__main__":
    main(*sys.argv[1:])
