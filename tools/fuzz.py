#!/usr/bin/env python3
"""Throws random and damaged echo files at crates/echoes/out/echoes.

    tools/fuzz.py SEED COUNT      last line: N passed, M failed

Each run must end within two seconds, with exit status 0 and nothing on standard error, and print answers and then at most one refusal: as many answers, and
the refusal, that document 01 gives (tools/outcome.py). Where a build was tried, `refused 13` alone is accepted too. A file that fails is kept under
target/fuzz.
"""
import random
import re
import subprocess
import sys
import time
from pathlib import Path

from echo_file import bits, filtered, settings, unfiltered, vector
from outcome import LONGEST, Outcome

TOP = Path(__file__).resolve().parent.parent
PROGRAM = TOP / "crates/echoes/out/echoes"
SECONDS = 2
# two of them have one hash
LABELS = [b"", b"a", b"b", b"silt", b"drain", bytes.fromhex("d56bb95342870836"), b"77kepQFQ8Kl", bytes(255)]
ANSWER = re.compile(r"(?:\d{1,10} [0-9a-f]{8}\n){0,256}(?:whole|cut) \d{1,3}\n")
REFUSED = re.compile(r"refused (1|2|5|8|10|11|12|13|14|16|17|18)\n")


# ---- files

def component(rng):
    kind = rng.randrange(10)
    if kind == 0:
        return bits(rng.choice([0, 0x80000000, 1, 0x7F7FFFFF, 0xFF7FFFFF, 0x00800000]))
    if kind == 1:
        return float(rng.randrange(-2, 3))
    return rng.uniform(-1, 1)


def floats(rng, dimension):
    return [component(rng) for _ in range(dimension)]


def any_settings(rng):
    """Mostly within the limits of the program."""
    dimension = rng.choice([1, 2, 3, 8, 16, rng.randrange(1, 17)])
    values = [dimension, rng.choice([1, 2, 4, 16, 64]), rng.choice([0, 1, 2, 4, 16, 128]), rng.choice([0, 1, 5, 50, 256, 65537]), 4]
    if rng.random() < 0.05:
        values[rng.randrange(5)] = rng.choice([0, 17, 65, 128, 129, 4097, 65538, rng.getrandbits(32)])
    return values


def any_vector(rng, dimension):
    document = rng.choice([rng.randrange(20), rng.getrandbits(32)])
    labels = rng.randrange(256) if rng.random() < 0.002 else rng.choice([0, 1, 1, 1, 2, 3])
    return vector(document, rng.choices(LABELS[:-1], k=labels), floats(rng, dimension))


def any_search(rng, dimension):
    k = rng.choice([0, 1, 3, 10, 256, 256, rng.randrange(300)])
    if rng.random() < 0.5:
        return unfiltered(k, floats(rng, dimension))
    return filtered(k, rng.choice(LABELS), floats(rng, dimension))


def whole_file(rng):
    """A list of records in the order that a file has."""
    values = any_settings(rng)
    dimension = values[0] if 1 <= values[0] <= 16 else 0
    vectors = [any_vector(rng, dimension) for _ in range(rng.choice([0, 1, 3, 20, 60, 128, rng.randrange(140)]))]
    searches = [any_search(rng, dimension) for _ in range(rng.choice([0, 1, 2, 5, 20]))]
    return [settings(*values), *vectors, *searches]


def as_it_is(rng):
    return b"".join(whole_file(rng))


def random_bytes(rng):
    return rng.randbytes(rng.choice([0, 1, 2, 3, 22, 100, 5000, LONGEST, LONGEST + 1, rng.randrange(70000)]))


def random_records(rng):
    """Marks with random bytes behind them."""
    parts = (b"\x5a" + bytes([rng.choice([1, 2, 4, 5])]) + rng.randbytes(rng.randrange(40)) for _ in range(rng.randrange(20)))
    return b"".join([settings(*any_settings(rng)), *parts])


def changed(rng):
    data = bytearray(as_it_is(rng))
    for _ in range(rng.choice([1, 1, 2, 5, 30])):
        data[rng.randrange(len(data))] = rng.choice([0, 1, 0x5A, 0x7F, 0xFF, rng.randrange(256)])
    return bytes(data)


def cut(rng):
    data = as_it_is(rng)
    return data[:rng.randrange(len(data))]


def cut_out(rng):
    data = as_it_is(rng)
    start = rng.randrange(len(data))
    return data[:start] + data[start + rng.randrange(1, 40):]


def repeated(rng):
    data = as_it_is(rng)
    start = rng.randrange(len(data))
    return data[:start] + data[start:start + rng.randrange(1, 60)] * rng.randrange(2, 10) + data[start:]


def shuffled(rng):
    """Records in any order, in most the settings first."""
    first, *parts = whole_file(rng)
    rng.shuffle(parts)
    parts.insert(0 if rng.random() < 0.8 else rng.randrange(len(parts) + 1), first)
    return b"".join(parts)


def extended(rng):
    data = as_it_is(rng)
    return data + rng.randbytes(rng.choice([1, 2, 50, max(0, LONGEST - len(data)), max(0, LONGEST + 1 - len(data)), 100000]))


def many_searches(rng):
    """Filled with searches up to the longest file."""
    dimension = rng.choice([1, 2, 16])
    data = settings(dimension, 64, rng.choice([0, 1, 128]), 65537, 4)
    data += b"".join(vector(i, [b"a"], floats(rng, dimension)) for i in range(rng.choice([20, 128])))
    search = unfiltered(256, floats(rng, dimension))
    return data + search * ((LONGEST - len(data)) // len(search))


KINDS = [as_it_is, random_bytes, random_records, changed, changed, changed, cut, cut, cut_out, repeated, shuffled, extended]


# ---- what must be printed

def answers_in(text):
    """The number of answers in a printed text and the refusal behind them; none where a line has no known form or stands elsewhere."""
    at, answers, refusal = 0, 0, None
    while found := ANSWER.match(text, at):
        at, answers = found.end(), answers + 1
    if found := REFUSED.match(text, at):
        at, refusal = found.end(), int(found[1])
    return None if at < len(text) else (answers, refusal)


def wrong(data, text):
    """What is wrong with the text printed of a file; nothing where all is as it must be."""
    printed = answers_in(text)
    outcome = Outcome(data)
    if printed is None:
        return "a line of unknown form"
    if printed == (outcome.answers, outcome.refusal) or printed == (0, 13) and outcome.builds:
        return ""
    return f"answers and refusal are {printed} and not {(outcome.answers, outcome.refusal)}"


def run(data):
    """What is wrong with a run, and its seconds."""
    start = time.monotonic()
    try:
        done = subprocess.run([PROGRAM], input=data, capture_output=True, timeout=SECONDS)
    except subprocess.TimeoutExpired:
        return f"over {SECONDS} seconds", SECONDS
    seconds = time.monotonic() - start
    if done.returncode != 0 or done.stderr:
        return f"exit status {done.returncode}", seconds
    return wrong(data, done.stdout.decode("latin-1")), seconds


def main():
    if len(sys.argv) != 3:
        sys.exit(__doc__)
    seed, count = int(sys.argv[1]), int(sys.argv[2])
    failed, slowest = 0, 0.0
    for i in range(count):
        rng = random.Random(f"{seed} {i}")
        kind = many_searches if i % 100 == 99 else rng.choice(KINDS)
        data = kind(rng)
        problem, seconds = run(data)
        slowest = max(slowest, seconds)
        if problem:
            failed += 1
            kept = TOP / f"target/fuzz/{seed}-{i}.echo"
            kept.parent.mkdir(parents=True, exist_ok=True)
            kept.write_bytes(data)
            print(f"{kept.relative_to(TOP)} ({kind.__name__}): {problem}")
    print(f"slowest run {slowest:.2f} s")
    print(f"{count - failed} passed, {failed} failed")
    sys.exit(1 if failed else 0)


if __name__ == "__main__":
    main()
