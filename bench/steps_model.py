"""The rules of the stores, states, leases, merges and collections, written down plainly and slowly, and the clients that work
by them. bench/steps_table.py reads schedules by it. It shares nothing with the proved program."""
from collections import namedtuple

WRITER, READER, COMPACTOR, COLLECTOR, EXPIRER = "writer", "reader", "compactor", "collector", "expirer"
CLOSED = float("inf")
FAILED, MISMATCH = "failed", "mismatch"
MOST = 2**64 - 1
HEAVIEST = 2**62

Member = namedtuple("Member", "number kind since hold beat lease token")
Batch = namedtuple("Batch", "lower upper since rows parts")
State = namedtuple("State", "number next_member since upper weight members batches")


# ---- updates, frontiers and batches

def consolidated(rows):
    sums = {}
    for datum, time, diff in rows:
        sums[datum, time] = sums.get((datum, time), 0) + diff
    return [(datum, time, diff) for (datum, time), diff in sorted(sums.items()) if diff != 0]


def content_at(rows, t):
    sums = {}
    for datum, time, diff in rows:
        if time <= t:
            sums[datum] = sums.get(datum, 0) + diff
    return [(datum, diff) for datum, diff in sorted(sums.items()) if diff != 0]


def after(t):
    return CLOSED if t == MOST else t + 1


def shown(frontier):
    return "closed" if frontier == CLOSED else str(frontier)


def in_parts(rows):
    return [rows[at : at + 4096] for at in range(0, len(rows), 4096)]


def due(batches):
    """The place of the leftmost pair whose left side weighs less than twice its right side."""
    for at, (left, right) in enumerate(zip(batches, batches[1:])):
        if left.rows + 1 < 2 * (right.rows + 1):
            return at
    return None


# ---- states

class Refused(Exception):
    pass


FIRST = State(0, 0, 0, 0, 0, {}, [])


def with_since(state):
    sinces = [member.since for member in state.members.values() if member.kind == READER]
    return state._replace(since=max(state.since, min(sinces))) if sinces else state


def floor_of(state):
    return min([member.hold for member in state.members.values() if member.kind != WRITER], default=state.number)


def run_out(state, now):
    return [m.number for m in state.members.values() if m.kind != WRITER and now >= m.beat + m.lease]


def applied(state, what, *fields):
    """The state that the next version holds, or why there is none."""
    number = state.number + 1
    members, batches = dict(state.members), list(state.batches)
    new = state._replace(number=number, members=members, batches=batches)
    if what == "join":
        kind, now, lease = fields
        if len(members) == 256:
            raise Refused("full")
        writes = kind == WRITER
        members[state.next_member] = Member(state.next_member, kind, state.since if kind == READER else 0,
                                            0 if writes else number, 0 if writes else now, 0 if writes else lease, 0)
        return new._replace(next_member=state.next_member + 1)
    if what == "expire":
        ended = run_out(state, *fields)
        if not ended:
            raise Refused("none")
        for one in ended:
            del members[one]
        return with_since(new)
    member = members.get(fields[0])
    if member is None:
        raise Refused("absent")
    if what == "leave":
        del members[member.number]
        return with_since(new)
    if what == "renew":
        members[member.number] = member._replace(beat=max(member.beat, fields[1]), hold=number)
    if what == "advance":
        if fields[1] < member.since:
            raise Refused("back")
        members[member.number] = member._replace(since=fields[1])
        return with_since(new)
    if what == "append":
        _, token, lower, upper, rows, weight, parts = fields
        if token <= member.token:
            raise Refused("token")
        if state.upper != lower:
            raise Refused("mismatch")
        if state.weight + weight > HEAVIEST:
            raise Refused("heavy")
        members[member.number] = member._replace(token=token)
        batches.append(Batch(lower, upper, 0, rows, parts))
        return new._replace(upper=upper, weight=state.weight + weight)
    if what == "merge":
        _, token, left, right, merged = fields
        if token <= member.token:
            raise Refused("token")
        at = next((at for at, pair in enumerate(zip(batches, batches[1:])) if pair == (left, right)), None)
        if at is None:
            raise Refused("superseded")
        members[member.number] = member._replace(token=token, hold=number)
        batches[at : at + 2] = [merged]
    return new


# ---- the store

class Store:
    """Versions by number and blobs by key, and a list of all calls with their replies. `fails` says which calls fail, and whether
    they take effect all the same."""

    def __init__(self, fails):
        self.fails, self.log, self.versions, self.blobs = fails, [], {}, {}

    def last(self):
        return max(self.versions, default=None)

    def reply(self, call, key=None, value=None):
        if call == "Head":
            return self.last()
        if call == "Scan":
            return [self.versions[n] for n in sorted(self.versions) if n >= key]
        if call == "Cas":
            if key != self.last():
                return MISMATCH
            self.versions[value[0].number] = value
            return value[0].number
        if call == "Truncate":
            for number in [n for n in self.versions if n < min(key, self.last())]:
                del self.versions[number]
        if call == "Get":
            return self.blobs.get(key)
        if call == "Set":
            self.blobs[key] = value
        if call == "Delete":
            self.blobs.pop(key, None)
        return "done"

    def call(self, *call):
        took = self.fails.get(len(self.log))
        reply = FAILED if took is False else self.reply(*call)
        if took is True:
            reply = FAILED
        self.log.append((call, reply if took is None else "failed, took effect" if took else FAILED))
        return reply


def again(*call):
    """A call that is made again until it is answered."""
    while True:
        reply = yield call
        if reply != FAILED:
            return reply


# ---- clients. A command yields the calls that it makes, gets their replies, and returns its answer.

class Client:
    def __init__(self, kind, lease):
        self.kind, self.lease = kind, lease
        self.state = self.member = self.command = self.listens = None
        self.token = 0
        self.gone = self.stopped = False

    def load(self):
        found = yield from again("Scan", 0 if self.state is None else self.state.number + 1)
        if found:
            self.state = found[-1][0]

    def stands(self):
        return self.member in self.state.members

    def expired(self):
        self.gone = True
        return [f"expired {self.state.number}"]

    def commits(self, *step, token=None, scanned=False):
        """Tried on the state last seen first. None is that it was committed; else why not, as a Scan shows."""
        while True:
            try:
                new = applied(self.state, *step)
            except Refused as refused:
                if scanned:
                    return str(refused)
                yield from self.load()
                scanned = True
                continue
            reply = yield "Cas", self.state.number, (new, step)
            if reply == new.number:
                self.before, self.state = self.state, new
                return None
            yield from self.load()
            scanned = True
            if token is not None and self.stands() and self.state.members[self.member].token == token:
                return None

    def open(self, now):
        yield from self.load()
        while self.state is None:
            if (yield "Cas", None, (FIRST, ("init",))) == 0:
                self.state = FIRST
            else:
                yield from self.load()
        while True:
            try:
                new = applied(self.state, "join", self.kind, now, self.lease)
            except Refused:
                self.gone = True
                return ["full"]
            if (yield "Cas", self.state.number, (new, ("join", self.kind))) == new.number:
                self.member = self.state.next_member
                self.state = new
                return []
            yield from self.load()

    def changes(self, *step):
        why = yield from self.commits(step[0], self.member, *step[1:])
        if why == "absent":
            return self.expired()
        if why == "back":
            return [f"back {self.state.members[self.member].since}"]
        return ["ok"]

    def close(self):
        yield from self.commits("leave", self.member)
        self.gone = True
        return ["ok"]

    def append(self, lower, upper, rows):
        weight = min(sum(abs(diff) for _, _, diff in rows), HEAVIEST + 1)
        parts = in_parts(consolidated(rows)) if weight <= HEAVIEST else []
        keys = [(self.member, self.token, at) for at in range(len(parts))]
        step = "append", self.member, self.token, lower, upper, sum(map(len, parts)), weight, keys
        try:
            applied(self.state, *step)
        except Refused:
            yield from self.load()
            try:
                applied(self.state, *step)
            except Refused as refused:
                return self.not_appended(str(refused))
        for key, part in zip(keys, parts):
            yield from again("Set", key, part)
        why = yield from self.commits(*step, token=self.token)
        return ["ok"] if why is None else self.not_appended(why)

    def not_appended(self, why):
        return [f"mismatch {shown(self.state.upper)}" if why == "mismatch" else f"heavy {self.state.weight}"]

    def bytes_of(self, batches):
        """The rows of these batches, or None where a part is gone with the reader's lease."""
        rows = []
        for key in [key for batch in batches for key in batch.parts]:
            part = yield from again("Get", key)
            if part is None:
                yield from self.load()
                assert not self.stands(), "a part is missing"
                return None
            rows += part
        return rows

    def snapshot(self, t):
        yield from self.load()
        if not self.stands():
            return self.expired()
        if t < self.state.since:
            return [f"early {self.state.since}"]
        if not t < self.state.upper:
            return [f"late {shown(self.state.upper)}"]
        rows = yield from self.bytes_of([batch for batch in self.state.batches if batch.lower <= t])
        if rows is None:
            return self.expired()
        return [f"{diff} {datum}" for datum, diff in content_at(rows, t)] + ["."]

    def listen(self):
        yield from self.load()
        here, upper = self.listens, self.state.upper
        if not self.stands():
            return self.expired()
        if here != CLOSED and here <= self.state.since:
            self.listens = None
            return [f"early {self.state.since}"]
        if here == CLOSED and upper == CLOSED:
            return ["ended"]
        if upper <= here:
            return [f"quiet {shown(upper)}"]
        rows = yield from self.bytes_of([batch for batch in self.state.batches if batch.upper > here])
        if rows is None:
            return self.expired()
        self.listens = upper
        told = consolidated((datum, time, diff) for datum, time, diff in rows if here <= time < upper)
        told.sort(key=lambda row: (row[1], row[0]))
        return [f"{time} {diff} {datum}" for datum, time, diff in told] + [f"upto {shown(upper)}"]

    def merge(self):
        yield from self.load()
        if not self.stands():
            return self.expired()
        at = due(self.state.batches)
        if at is None:
            return [f"nothing {self.state.number}"]
        since = self.state.since
        left, right = self.state.batches[at : at + 2]
        rows = yield from self.bytes_of([left, right])
        if rows is None:
            return self.expired()
        parts = in_parts(consolidated((datum, max(time, since), diff) for datum, time, diff in rows))
        keys = [(self.member, self.token, place) for place in range(len(parts))]
        for key, part in zip(keys, parts):
            yield from again("Set", key, part)
        merged = Batch(left.lower, right.upper, since, sum(map(len, parts)), keys)
        why = yield from self.commits("merge", self.member, self.token, left, right, merged, token=self.token)
        if why is None:
            return [f"merged {self.state.members[self.member].hold}"]
        return self.expired() if why == "absent" else [f"superseded {self.state.number}"]

    def collect(self):
        found = yield from again("Scan", 0)
        if not found:
            return ["collected 0 0"]
        floor = floor_of(found[-1][0])
        merges = [step for state, step in found if step[0] == "merge" and state.number <= floor]
        keys = [key for step in merges for batch in step[3:5] for key in batch.parts]
        for key in keys:
            yield from again("Delete", key)
        if found[0][0].number < floor:
            yield from again("Truncate", floor)
        return [f"collected {floor} {len(keys)}"]

    def expire(self, now):
        seen = self.state is None
        if seen:
            yield from self.load()
            if self.state is None:
                return ["none 0"]
        why = yield from self.commits("expire", now, scanned=seen)
        return [f"none {self.state.number}"] if why else [" ".join(map(str, ["removed"] + run_out(self.before, now)))]
