"""Schedules of single store calls: which text spells one, and what `steps` says of it, over the rules of steps_model.py."""
import re

from steps_model import CLOSED, COLLECTOR, COMPACTOR, EXPIRER, FAILED, MOST, READER, WRITER, Client, Store, after

# ---- the text of a schedule

COMMANDS = {
    WRITER: {"close": 0},
    READER: {"snapshot": 1, "listen": 1, "next": 0, "advance": 1, "renew": 0, "close": 0},
    COMPACTOR: {"merge": 0, "renew": 0, "close": 0},
    COLLECTOR: {"collect": 0},
    EXPIRER: {"expire": 0},
}


class BadLine(Exception):
    pass


def number(word, least=0, most=MOST):
    if not re.fullmatch("0|[1-9][0-9]*", word) or not least <= int(word) <= most:
        raise BadLine
    return int(word)


def difference(word):
    if word.startswith("-"):
        return -number(word[1:], 1, 2**63)
    return number(word, 0, 2**63 - 1)


def row(line):
    words = line.split(" ", 2)
    if len(words) < 3 or not 1 <= len(words[2].encode()) <= 255:
        raise BadLine
    return words[2], number(words[0]), difference(words[1])


class Reading:
    """The lines that a text spells. A line is the words that it begins with, numbers read, and the clients are named."""

    def __init__(self):
        self.kinds, self.stopped, self.moment, self.block = {}, set(), 0, None

    def client(self, name):
        if name not in self.kinds or name in self.stopped:
            raise BadLine
        return self.kinds[name]

    def made(self, kind, name, *lease):
        if not re.fullmatch("[A-Za-z]{1,8}", name) or name in self.kinds or len(self.kinds) == 64:
            raise BadLine
        if len(lease) != (kind in (READER, COMPACTOR)):
            raise BadLine
        self.kinds[name] = kind
        return [kind, name] + [number(word) for word in lease]

    def begun(self, name, command, *words):
        kind = self.client(name)
        if command == "append":
            if kind != WRITER or len(words) != 2:
                raise BadLine
            self.block = ["begin", name, "append", number(words[0]), CLOSED if words[1] == "closed" else number(words[1]), []]
            return None
        if COMMANDS[kind].get(command) != len(words):
            raise BadLine
        return ["begin", name, command] + [number(word) for word in words]

    def line(self, text):
        """The line, or None where a block isn't at its end."""
        if self.block:
            if text != ".":
                if len(self.block[5]) == 65536:
                    raise BadLine
                self.block[5].append(row(text))
                return None
            line, self.block = self.block, None
            return line
        words = text.split(" ")
        if words == ["head"]:
            return words
        if len(words) < 2:
            raise BadLine
        if words[0] in COMMANDS and len(words) <= 3:
            return self.made(*words)
        if words[0] == "moment" and len(words) == 2:
            self.moment = number(words[1], self.moment)
            return ["moment", self.moment]
        if words[0] == "begin" and len(words) > 2:
            return self.begun(*words[1:])
        if words[0] == "step" and len(words) == 3:
            self.client(words[1])
            return ["step", words[1], number(words[2], 1, 10**6)]
        if words[0] == "stop" and len(words) == 2:
            self.client(words[1])
            self.stopped.add(words[1])
            return words
        raise BadLine


def lines_of(text):
    """The lines of a schedule, each with its text; or the number of the first line at fault."""
    reading, lines, begins = Reading(), [], 0
    texts = text.removesuffix("\n").split("\n") if text else []
    for at, one in enumerate(texts):
        if reading.block is None:
            begins = at
            if len(lines) == 2048:
                return at + 1
        try:
            line = reading.line(one)
        except BadLine:
            return at + 1
        if line:
            lines.append((line, texts[begins : at + 1]))
    return len(texts) if reading.block else lines


# ---- the execution

class StoreFailed(Exception):
    pass


class Running:
    def __init__(self, fails):
        self.store, self.clients, self.moment, self.said = Store(fails), {}, 0, []

    def says(self, name, lines):
        self.said += [f"{name} {line}" for line in lines]

    def poll(self, client):
        """One call of the open command. True is that it failed, and a list the answer."""
        try:
            call = client.call or next(client.command)
        except StopIteration as ended:
            raise AssertionError("no command ends before its first call") from ended
        reply = self.store.call(*call)
        client.call = None
        try:
            client.call = client.command.send(reply)
        except StopIteration as ended:
            client.command = None
            return ended.value
        return reply == FAILED

    def make(self, kind, name, lease=0):
        client = self.clients[name] = Client(kind, lease)
        if kind in (COLLECTOR, EXPIRER):
            return
        client.command, client.call = client.open(self.moment), None
        while client.command:
            answer = self.poll(client)
            if answer is True:
                raise StoreFailed
        self.says(name, answer)

    def refusal(self, client, command, fields):
        if client.gone:
            return "gone"
        if client.command:
            return "open"
        if command == "append":
            lower, upper, rows = fields
            if not lower < upper:
                return "empty"
            for at, (_, time, _) in enumerate(rows):
                if not lower <= time < upper:
                    return f"range {at + 1}"
        if command == "next" and client.listens is None:
            return "no listen"
        return None

    def begin(self, name, command, *fields):
        client = self.clients[name]
        why = self.refusal(client, command, fields)
        if why:
            self.says(name, [why])
            return
        client.call = None
        if command in ("append", "merge"):
            client.token += 1
        if command == "listen":
            client.listens = after(*fields)
        client.command = {
            "append": client.append,
            "snapshot": client.snapshot,
            "listen": lambda _: client.listen(),
            "next": client.listen,
            "advance": lambda to: client.changes("advance", to),
            "renew": lambda: client.changes("renew", self.moment),
            "close": client.close,
            "merge": client.merge,
            "collect": client.collect,
            "expire": lambda: client.expire(self.moment),
        }[command](*fields)

    def step(self, name, polls):
        client = self.clients[name]
        for _ in range(polls):
            if client.command is None:
                return
            answer = self.poll(client)
            if answer is True:
                self.says(name, ["fault"])
            elif client.command is None:
                self.says(name, answer)

    def head(self):
        last = self.store.call("Head")
        if last == FAILED:
            raise StoreFailed
        self.said.append(f"head {'none' if last is None else last}")

    def line(self, line):
        word, *rest = line
        if word in COMMANDS:
            self.make(word, *rest)
        elif word == "moment":
            self.moment = rest[0]
        elif word in ("begin", "step", "head"):
            getattr(self, word)(*rest)


def said_of(text, fails, told=None):
    """The lines that `steps` prints of a schedule, the last line included."""
    lines = lines_of(text)
    if isinstance(lines, int):
        return [f"line {lines}"]
    running = Running(fails)
    for line, texts in lines:
        calls, said = len(running.store.log), len(running.said)
        try:
            running.line(line)
        except StoreFailed:
            running.said.append("store failed")
        if told:
            told(texts, calls, running.store.log[calls:], running.said[said:])
        if running.said[-1:] == ["store failed"]:
            break
    return running.said


# ---- the calls of a schedule

def call_text(call):
    what, *given = call
    if what in ("Get", "Set", "Delete"):
        return f"{what}({'.'.join(map(str, given[0]))})"
    if what == "Cas":
        return f"Cas({'none' if given[0] is None else given[0]}, {given[1][1][0]})"
    return f"{what}({', '.join(map(str, given))})"


def reply_text(call, reply):
    if call[0] == "Scan" and isinstance(reply, list):
        return f"{reply[0][0].number}..{reply[-1][0].number}" if reply else "none"
    if call[0] == "Get":
        return "absent" if reply is None else reply if isinstance(reply, str) else "bytes"
    return str(reply)


def tell(texts, first, log, said):
    calls = "; ".join(f"{first + at} {call_text(call)} = {reply_text(call, reply)}" for at, (call, reply) in enumerate(log))
    print(f"{' / '.join(texts):<40}{calls}{'' if not said else '   -> ' + ' / '.join(said)}".rstrip())
