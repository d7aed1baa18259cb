#!/usr/bin/env python3
"""A plain, slow reader of parts. Writes a table of parts, most of them malformed, as hex lines (`parts`), and what each
of them is (`answers`): the stored run of crates/part_codec_bench compares the proved decoder with it."""
import struct
import sys


def part(rows):
    out = b"PART\x01" + struct.pack(">I", len(rows))
    for datum, time, diff in rows:
        out += bytes([len(datum)]) + datum + struct.pack(">Qq", time, diff)
    return out


def answer(text):
    place = 0

    def field(size):
        nonlocal place
        if len(text) - place < size:
            raise ValueError(f"short {place}")
        place += size
        return text[place - size : place]

    try:
        if field(4) != b"PART":
            return "magic 0"
        if field(1) != b"\x01":
            return "form 4"
        count = int.from_bytes(field(4), "big")
        if count > 4096:
            return "size 5"
        before = None
        for _ in range(count):
            start = place
            size = field(1)[0]
            if size == 0:
                return f"size {start}"
            datum = field(size)
            time = int.from_bytes(field(8), "big")
            here = place
            diff = int.from_bytes(field(8), "big", signed=True)
            if diff == 0:
                return f"zero {here}"
            if before is not None and (datum, time) <= before:
                return f"order {start}"
            before = (datum, time)
    except ValueError as fault:
        return str(fault)
    return f"trailing {place}" if place < len(text) else f"rows {count}"


def table():
    one = part([(b"a", 3, 1)])
    two = part([(b"ab", 3, -1), (b"ab", 4, 2), (b"b", 0, 2**63 - 1)])
    yield part([])
    for good in [one, two]:
        yield good
        for end in range(len(good)):
            yield good[:end]
        for at in range(len(good)):
            for byte in {0, 1, 255, good[at] ^ 0x80, (good[at] + 1) % 256, (good[at] - 1) % 256}:
                if byte != good[at]:
                    yield good[:at] + bytes([byte]) + good[at + 1 :]
        for more in [b"\x00", b"\x01", good]:
            yield good + more
    yield part([(b"a", 3, 1), (b"a", 3, 1)])
    yield part([(b"b", 3, 1), (b"a", 4, 1)])
    yield part([(b"a" * 255, 2**64 - 1, -(2**63))])


if __name__ == "__main__":
    for text in table():
        print(text.hex() if sys.argv[1] == "parts" else answer(text))
