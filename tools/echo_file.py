#!/usr/bin/env python3
"""Writes an echo file (document 01, 'The echo file and its printer') from a readable text.

    tools/echo_file.py TEXT > FILE        samples/README.md says what a text may hold
"""
import re
import struct
import sys


# ---- records as bytes

def settings(dimension, branching, leaf_size, ef, beam):
    return b"\x5a\x01" + struct.pack("<5I", dimension, branching, leaf_size, ef, beam)


def vector(document, labels, floats):
    lengths = bytes(len(label) for label in labels)
    return b"\x5a\x02" + struct.pack("<IB", document, len(labels)) + lengths + b"".join(labels) + pack(floats)


def filtered(k, label, floats):
    return b"\x5a\x04" + struct.pack("<HB", k, len(label)) + label + pack(floats)


def unfiltered(k, floats):
    return b"\x5a\x05" + struct.pack("<H", k) + pack(floats)


def pack(floats):
    """Components, each a number or the four bytes themselves."""
    return b"".join(x if isinstance(x, bytes) else struct.pack("<f", x) for x in floats)


def bits(pattern):
    """A component by its bits."""
    return struct.pack("<I", pattern)


# ---- bytes as records

def record_end(data, at, dimension):
    """Where the record at a place ends; None where its mark is unknown or the data end inside it."""
    def byte(i):
        return data[i] if i < len(data) else 0

    mark = data[at:at + 2]
    if mark == b"\x5a\x01":
        end = at + 22
    elif mark == b"\x5a\x02":
        count = byte(at + 6)
        end = at + 7 + count + sum(byte(at + 7 + i) for i in range(count)) + 4 * dimension
    elif mark == b"\x5a\x04":
        end = at + 5 + byte(at + 4) + 4 * dimension
    elif mark == b"\x5a\x05":
        end = at + 4 + 4 * dimension
    else:
        return None
    return end if end <= len(data) else None


def records(data):
    """The complete records of a file up to the first that is none, and whether the file ends with them. Before settings D counts as 0."""
    found, at, dimension = [], 0, 0
    while at < len(data):
        end = record_end(data, at, dimension)
        if end is None:
            return found, False
        found.append(data[at:end])
        if data[at + 1] == 1 and len(found) == 1:
            dimension = struct.unpack_from("<I", data, at + 2)[0]
        at = end
    return found, True


def is_search(record):
    return record[1] in (4, 5)


# ---- the readable text

WORD = re.compile(r'"[^"]*"|[^\s"]+')


def label_of(word):
    return word.strip('"').encode()


def component(word):
    """A decimal number, `inf`, `-inf` or `nan`, or bits such as 0x3f800000."""
    return bits(int(word, 16)) if word.startswith("0x") else float(word)


def line_bytes(line):
    head, bar, tail = line.rpartition("|") if "|" in line else (line, "", "")
    words = WORD.findall(head)
    floats = [component(word) for word in tail.split()]
    kind, rest = words[0], words[1:]
    if kind == "settings" and len(rest) == 5:
        return settings(*map(int, rest))
    if kind == "vector" and bar and rest:
        return vector(int(rest[0]), [label_of(word) for word in rest[1:]], floats)
    if kind == "search" and bar and len(rest) == 1:
        return unfiltered(int(rest[0]), floats)
    if kind == "search" and bar and len(rest) == 2:
        return filtered(int(rest[0]), label_of(rest[1]), floats)
    if kind == "bytes":
        return bytes.fromhex("".join(rest))
    raise ValueError("neither settings, vector, search nor bytes")


def text_bytes(text):
    """The file that a text describes."""
    out = b""
    for number, line in enumerate(text.splitlines(), 1):
        if not line.strip() or line.startswith("#"):
            continue
        try:
            out += line_bytes(line)
        except (ValueError, OverflowError, struct.error) as error:
            raise SystemExit(f"line {number}: {line.strip()}: {error}")
    return out


def main():
    if len(sys.argv) != 2:
        raise SystemExit(__doc__)
    with open(sys.argv[1], encoding="utf-8") as text:
        sys.stdout.buffer.write(text_bytes(text.read()))


if __name__ == "__main__":
    main()
