#!/usr/bin/env python3
"""A plain, slow reader of versions. Writes a few versions as lines of shard, number and hex (`versions`), and what each of
them is with any one byte changed, cut anywhere, or lengthened (`answers`): the stored run of crates/version_codec_bench
compares the proved decoder with it."""
import sys

WRITER, READER, KEEPER = 0, 1, 2
INIT, JOIN, LEAVE, RENEW, ADVANCE, EXPIRE, APPEND, MERGE = range(8)
CLOSED = None


# ---- the spelling

def u64(number):
    return number.to_bytes(8, "big")


def frontier(time):
    return b"\x01" if time is CLOSED else b"\x00" + u64(time)


def numbers(*values):
    return b"".join(u64(value) for value in values)


def keys(parts):
    return u64(len(parts)) + b"".join(numbers(*key) for key in parts)


def batch(lower, upper, since, rows, parts):
    return u64(lower) + frontier(upper) + numbers(since, rows) + keys(parts)


def member(number, kind, since, hold, beat, lease, token):
    return u64(number) + bytes([kind]) + numbers(since, hold, beat, lease, token)


def transition(tag, *fields):
    out = bytes([tag])
    if tag == JOIN:
        kind, now, lease = fields
        return out + bytes([kind]) + numbers(now, lease)
    if tag == APPEND:
        owner, token, expected, new, rows, weight, parts = fields
        return out + numbers(owner, token, expected) + frontier(new) + numbers(rows, weight) + keys(parts)
    if tag == MERGE:
        owner, token, left, right, merged = fields
        return out + numbers(owner, token) + batch(*left) + batch(*right) + batch(*merged)
    return out + numbers(*fields)


def version(next_member, since, upper, weight, members, batches, step):
    out = b"PVER\x01" + numbers(next_member, since) + frontier(upper) + u64(weight)
    out += len(members).to_bytes(2, "big") + b"".join(member(*one) for one in members)
    out += u64(len(batches)) + b"".join(batch(*one) for one in batches)
    return out + transition(*step)


# ---- the reading

class Fault(Exception):
    pass


def covers(time, other):
    return time is CLOSED or other < time


def parts_for(rows):
    return (rows + 4095) // 4096


class Reading:
    def __init__(self, number, text):
        self.number = number
        self.text = text
        self.place = 0

    def field(self, size):
        """A field of so many bytes, and where it begins."""
        start = self.place
        if len(self.text) - start < size:
            raise Fault(f"short {start}")
        self.place = start + size
        return int.from_bytes(self.text[start : self.place], "big"), start

    def number_where(self, rule):
        """A number of eight bytes that keeps a rule."""
        value, start = self.field(8)
        if not rule(value):
            raise Fault(f"rule {start}")
        return value

    def any_number(self):
        return self.field(8)[0]

    def kind(self):
        value, start = self.field(1)
        if value > KEEPER:
            raise Fault(f"tag {start}")
        return value

    def frontier_where(self, rule):
        tag, start = self.field(1)
        if tag > 1:
            raise Fault(f"tag {start}")
        if tag == 0:
            # The tag and the time are one field.
            self.place = start
            time = self.field(9)[0]
        else:
            time = CLOSED
        if not rule(time):
            raise Fault(f"rule {start}")
        return time

    def any_frontier(self):
        return self.frontier_where(lambda _: True)

    def member(self, before):
        number = self.number_where(lambda n: n < self.next_member and (not before or n > before[-1][0]))
        kind = self.kind()
        since = self.number_where(lambda n: kind == READER or n == 0)
        hold = self.number_where(lambda n: n <= self.number and (kind != WRITER or n == 0))
        beat = self.number_where(lambda n: kind != WRITER or n == 0)
        lease = self.number_where(lambda n: kind != WRITER or n == 0)
        token = self.number_where(lambda n: kind != READER or n == 0)
        return number, kind, since, hold, beat, lease, token

    def members(self):
        count, start = self.field(2)
        if count > 256:
            raise Fault(f"rule {start}")
        found = []
        last_since = None
        for _ in range(count):
            begin = self.place
            found.append(self.member(found))
            if found[-1][1] == READER:
                last_since = begin + 9
        sinces = [one[2] for one in found if one[1] == READER]
        if sinces and self.since != min(sinces):
            raise Fault(f"rule {last_since}")
        return found

    def key(self, members, before):
        owner = self.number_where(lambda n: n < self.next_member)
        token = self.number_where(lambda n: all(n <= one[6] for one in members if one[0] == owner))
        index = self.number_where(lambda n: (owner, token, n) not in before)
        return owner, token, index

    def batches(self, members):
        count = self.number_where(lambda n: n > 0 or self.upper == 0)
        found = []
        named = []
        reached = 0
        room = self.weight
        for which in range(count):
            lower = self.number_where(lambda n: n == reached)
            is_last = which + 1 == count
            upper = self.frontier_where(lambda f: covers(f, lower) and (not is_last or f == self.upper))
            since = self.number_where(lambda n: n <= self.since)
            rows = self.number_where(lambda n: n <= room)
            size = self.number_where(lambda n: n == parts_for(rows))
            parts = []
            for _ in range(size):
                parts.append(self.key(members, named))
                named.append(parts[-1])
            found.append((lower, upper, since, rows, parts))
            reached = upper
            room -= rows
        return found

    def any_keys(self):
        return [(self.any_number(), self.any_number(), self.any_number()) for _ in range(self.any_number())]

    def any_batch(self):
        return self.any_number(), self.any_frontier(), self.any_number(), self.any_number(), self.any_keys()

    def transition(self):
        tag, start = self.field(1)
        if tag == INIT:
            fields = ()
        elif tag == JOIN:
            fields = self.kind(), self.any_number(), self.any_number()
        elif tag in (LEAVE, EXPIRE):
            fields = (self.any_number(),)
        elif tag in (RENEW, ADVANCE):
            fields = self.any_number(), self.any_number()
        elif tag == APPEND:
            fields = self.any_number(), self.any_number(), self.any_number(), self.any_frontier()
            fields += self.any_number(), self.any_number(), self.any_keys()
        elif tag == MERGE:
            fields = self.any_number(), self.any_number(), self.any_batch(), self.any_batch(), self.any_batch()
        else:
            raise Fault(f"tag {start}")
        if not is_shaped(tag, fields):
            raise Fault(f"rule {start}")
        if tag not in (INIT, JOIN, EXPIRE) and fields[0] >= self.next_member:
            raise Fault(f"rule {start}")
        return (tag,) + fields

    def version(self):
        if self.field(4)[0].to_bytes(4, "big") != b"PVER":
            raise Fault("magic 0")
        if self.field(1)[0] != 1:
            raise Fault("form 4")
        self.next_member = self.number_where(lambda n: n <= self.number)
        self.since = self.any_number()
        self.upper = self.any_frontier()
        self.weight = self.number_where(lambda n: n <= 2**62)
        members = self.members()
        batches = self.batches(members)
        step = self.transition()
        if self.place < len(self.text):
            raise Fault(f"trailing {self.place}")
        return self.next_member, self.since, self.upper, self.weight, members, batches, step


def are_numbered(owner, token, rows, parts):
    return parts == [(owner, token, index) for index in range(len(parts))] and len(parts) == parts_for(rows)


def is_shaped(tag, fields):
    """The shape rules that don't speak of the state before."""
    if tag == JOIN:
        kind, now, lease = fields
        return kind != WRITER or (now == 0 and lease == 0)
    if tag == APPEND:
        owner, token, expected, new, rows, weight, parts = fields
        if not covers(new, expected) or rows > 65536 or rows > weight or weight > 2**62 + 1:
            return False
        return are_numbered(owner, token, rows, parts)
    if tag == MERGE:
        owner, token, left, right, merged = fields
        if left[1] is CLOSED or left[1] != right[0]:
            return False
        if merged[0] != left[0] or merged[1] != right[1]:
            return False
        if merged[2] < left[2] or merged[2] < right[2] or merged[3] > left[3] + right[3]:
            return False
        return are_numbered(owner, token, merged[3], merged[4])
    return True


def answer(number, text):
    try:
        found = Reading(number, text).version()
    except Fault as fault:
        return str(fault)
    return "ok" if version(*found) == text else "respelled"


# ---- the table

def bases():
    # The first version of a shard.
    yield 0, version(0, 0, 0, 0, [], [], (INIT,))
    # Members of each kind, the last of which has just joined; the collection is closed, and has no rows.
    members = [
        (0, WRITER, 0, 0, 0, 0, 3),
        (2, READER, 5, 6, 100, 50, 0),
        (3, READER, 4, 8, 70, 0, 0),
        (6, KEEPER, 0, 9, 7, 20, 0),
    ]
    yield 9, version(7, 4, CLOSED, 0, members, [(0, CLOSED, 1, 0, [])], (JOIN, KEEPER, 7, 20))
    # A reader whose lease begins again. With another tag it leaves, or advances.
    yield 258, version(2, 3, 0, 0, [(1, READER, 3, 258, 257, 1, 0)], [], (RENEW, 1, 257))
    # Three batches: one of a member that is gone, one without rows, and one of two parts, which was just added,
    # of the greatest weight that an append may have.
    parts = [(1, 4, 0), (1, 4, 1)]
    batches = [(0, 5, 2, 3, [(0, 9, 0)]), (5, 6, 0, 0, []), (6, 300, 0, 4097, parts)]
    members = [(1, WRITER, 0, 0, 0, 0, 4)]
    yield 20, version(3, 2, 300, 4200, members, batches, (APPEND, 1, 4, 6, 300, 4097, 2**62 + 1, parts))
    # A batch that was just put in place of two, and one after it.
    left = (0, 5, 1, 2, [(0, 1, 0)])
    right = (5, 7, 2, 1, [(0, 2, 0)])
    merged = (0, 7, 3, 3, [(1, 1, 0)])
    batches = [merged, (7, 9, 0, 1, [(0, 3, 0)])]
    yield 6, version(2, 3, 9, 5, [(1, KEEPER, 0, 6, 40, 10, 1)], batches, (MERGE, 1, 1, left, right, merged))


def runs(answers):
    """The answers of the bytes from 00 on, as runs."""
    found = []
    for byte, what in enumerate(answers):
        if found and found[-1][2] == what:
            found[-1][1] = byte
        else:
            found.append([byte, byte, what])
    return ", ".join(f"{a:02x} {what}" if a == b else f"{a:02x}-{b:02x} {what}" for a, b, what in found)


def table():
    for number, good in bases():
        yield f"number {number}, {len(good)} bytes: {answer(number, good)}"
        for at in range(len(good)):
            changed = (good[:at] + bytes([byte]) + good[at + 1 :] for byte in range(256))
            yield f"{at}: " + runs(answer(number, text) for text in changed)
        for end in range(len(good)):
            yield f"cut {end} {answer(number, good[:end])}"
        for more in [b"\x00", b"\xff", good[-1:], good[:8], good]:
            yield f"longer by {len(more)} {answer(number, good + more)}"


if __name__ == "__main__":
    if sys.argv[1] == "versions":
        for number, good in bases():
            print(1, number, good.hex())
    else:
        for line in table():
            print(line)
