#!/usr/bin/env python3
"""Writes the expected output of the program index_test to standard output: a model of `new`, `add`, `take_back` and `withdraw`
written from document 01's table and 'The store' and from K3, K4, K7 and K10 of document 02, put to the calls that the program makes.

    python3 tools/index_test.py | diff - crates/index_test/stdout
"""
import math
import struct

USUAL = (16, 128, 256, 4)
MARK = 9
# how many bytes of text the states of adds, takings back and withdrawals have room for, and where the starts and lengths of their labels and the live
# marks of their vectors stand in the numbers
TEXT = 4
STARTS = 2 * 2 + 2 * 2 + 7 * 1
LENGTHS = STARTS + 2
LIVE = LENGTHS + 2


def f32(x):
    """x rounded to the nearest f32; beyond the largest, infinity."""
    try:
        return struct.unpack("<f", struct.pack("<f", x))[0]
    except OverflowError:
        return math.copysign(math.inf, x)


def bits(x):
    return "%08x" % struct.unpack("<I", struct.pack("<f", x))[0]


def fnv(label):
    h = 0xCBF29CE484222325
    for byte in label:
        h = (h ^ byte) * 0x100000001B3 % 2**64
    return h


def normalized(vector):
    """Sums and products of two f32 are rounded once: a double holds a product of two f32 exactly, and a sum or a root of
    such is rounded twice without harm, since a double has more than twice the digits."""
    total = f32(0.0)
    for x in vector:
        total = f32(total + f32(x * x))
    norm = f32(math.sqrt(total)) if math.isfinite(total) else total
    threshold = struct.unpack("<f", struct.pack("<I", 0x2EDBE6FF))[0]
    return [f32(x / norm) for x in vector] if norm > threshold else vector


def allowed(dimension, params, capacities):
    """Row 1, then row 2."""
    branching, leaf, ef, beam = params
    vectors, entries, nodes, text = capacities
    if not 1 <= dimension <= 128:
        return 1
    fine = 1 <= branching <= 64 and leaf <= 4096 and ef <= 65537 and beam <= 65535
    return 0 if fine and 1 <= vectors <= 4096 and entries <= 16384 and 1 <= nodes <= 65537 and text <= 4177920 else 2


def lent_rows(state, sizes):
    """The rows 4 and 3. The state is D 2, B 1, V 2, E 2, M 1 and four bytes of text, with these counts."""
    vectors, entries, nodes, held, built = state
    over = vectors > 2 or entries > 2 or nodes > 1 or held > TEXT
    unsound = over or (built and (vectors == 0 or nodes == 0)) or (not built and nodes != 0)
    needed = (2 * (2 + 1 + 1), 3 * 2 + 4 * 2 + 7 * 1, 2 + 4 * 1, TEXT)
    return [(4, unsound), (3, any(size < need for size, need in zip(sizes, needed)))]


def early_rows(state, sizes):
    """The rows 4, 3, 5 of add and take back."""
    return lent_rows(state, sizes) + [(5, state[-1])]


def first(rows):
    return next((number for number, holds in rows if holds), 0)


def refusal(state, sizes, vector, lengths, label_bytes):
    """Add's rows in their order: 4, 3, 5, 7, 8, 9, 10, 11, 20."""
    vectors, entries, nodes, held, built = state
    return first(early_rows(state, sizes) + [
        (7, len(vector) != 2),
        (8, not all(math.isfinite(x) for x in vector)),
        (9, len(lengths) % 2 == 1 or sum(lengths) != len(label_bytes)),
        (10, vectors == 2),
        (11, entries + len(lengths) // 2 > 2),
        (20, held + len(label_bytes) > TEXT),
    ])


def print_new(dimension, params=USUAL, capacities=(1, 0, 1, 0)):
    number = allowed(dimension, params, capacities)
    print(f"{number} " if number else "0 0 0 0 ")


def marked():
    """The four lists before a call."""
    return [f32(MARK)] * 10, [MARK] * 23, [MARK] * 8, [MARK] * 6


def print_lists(floats, numbers, hashes, text):
    print("".join(bits(x) + " " for x in floats))
    print("".join(f"{n} " for n in numbers))
    print("".join("%016x " % h for h in hashes))
    print("".join(f"{byte} " for byte in text))


def print_add(state, sizes, vector, lengths=b"", label_bytes=b""):
    floats, numbers, hashes, text = marked()
    number = refusal(state, sizes, vector, lengths, label_bytes)
    if number:
        print(f"{number} ")
    else:
        vectors, entries, held = state[0], state[1], state[3]
        print(f"0 {vectors + 1} {entries + len(lengths) // 2} {held + len(label_bytes)} ")
        floats[2 * vectors : 2 * vectors + 2] = normalized(vector)
        numbers[vectors] = 77
        numbers[LIVE + vectors] = 1
        start = 0
        for place, (first, second) in enumerate(zip(lengths[::2], lengths[1::2])):
            numbers[2 + entries + place] = vectors
            hashes[entries + place] = fnv(label_bytes[start : start + first + second])
            numbers[STARTS + entries + place] = held + start
            numbers[LENGTHS + entries + place] = first + second
            start += first + second
        text[held : held + len(label_bytes)] = label_bytes
    print_lists(floats, numbers, hashes, text)


def print_take_back(state, sizes, owners, starts=(1, 3)):
    """Take back's rows in their order: 4, 3, 5, 19. 'The entries taken back are those at the end whose owner is the last vector.'
    'Taking back lowers the bytes held to its first entry's start, if that is lower.'"""
    vectors, entries, nodes, held, built = state
    number = first(early_rows(state, sizes) + [(19, vectors == 0)])
    while number == 0 and entries > 0 and owners[entries - 1] == vectors - 1:
        entries -= 1
        held = min(starts[entries], state[3])
    print(f"{number} " if number else f"0 {vectors - 1} {entries} {held} ")


def print_withdraw(state, sizes, ids, marks):
    """Withdraw's rows in their order: 4, 3, 24. 'Withdrawing a document id .. writes 0 on every vector with that id, also after build'."""
    vectors, entries, nodes, held, built = state
    floats, numbers, hashes, text = marked()
    numbers[:2], numbers[LIVE : LIVE + 2] = ids, marks
    of_77 = [vector for vector in range(min(vectors, 2)) if ids[vector] == 77]
    number = first(lent_rows(state, sizes) + [(24, not of_77)])
    print(f"{number} " if number else f"0 {vectors} {entries} {held} ")
    for vector in [] if number else of_77:
        numbers[LIVE + vector] = 0
    print_lists(floats, numbers, hashes, text)


def main():
    for dimension in (0, 1, 128, 129):
        print_new(dimension)
    for params in [(0, 128, 256, 4), (1, 128, 256, 4), (64, 128, 256, 4), (65, 128, 256, 4), (16, 0, 0, 0), (16, 4096, 256, 4),
                   (16, 4097, 256, 4), (16, 128, 65537, 4), (16, 128, 65538, 4), (16, 128, 256, 65535), (16, 128, 256, 65536)]:
        print_new(2, params)
    for capacities in [(0, 0, 1, 0), (4096, 0, 1, 0), (4097, 0, 1, 0), (1, 16384, 1, 0), (1, 16385, 1, 0), (1, 0, 0, 0), (1, 0, 65537, 0), (1, 0, 65538, 0),
                       (1, 0, 1, 1), (1, 0, 1, 4177920), (1, 0, 1, 4177921)]:
        print_new(2, USUAL, capacities)
    print_new(0, (0, 128, 256, 4), (0, 0, 0, 4177921))

    vector, full, fresh = [3.0, 4.0], (10, 23, 8, 6), (0, 0, 0, 0, False)
    sizes, built = (8, 21, 6, 4), (1, 0, 1, 0, True)
    for state in [(3, 0, 0, 0, False), (0, 3, 0, 0, False), (1, 0, 2, 0, True), (0, 0, 1, 0, True), (1, 0, 0, 0, True), (1, 0, 1, 0, False),
                  (0, 0, 0, 5, False)]:
        print_add(state, full, vector)
    print_add((3, 0, 0, 0, False), (0, 0, 0, 0), vector)
    for lent in [(7, 21, 6, 4), (8, 20, 6, 4), (8, 21, 5, 4), (8, 21, 6, 3), sizes]:
        print_add(fresh, lent, vector)
    print_add(built, (8, 21, 5, 4), vector)
    print_add(built, (8, 21, 6, 3), vector)
    print_add(built, sizes, [3.0])
    least, greatest, infinity, nan = f32(-1.4e-45), f32(3.4028235e38), math.inf, math.nan
    for given in [[3.0], [nan, nan, nan], [greatest, 0.0], [f32(1e30), f32(-1e30)], [0.0, least], [infinity, 0.0], [0.0, -infinity]]:
        print_add(fresh, full, given)
    print_add(fresh, full, [0.0, nan], b"\1", b"")
    for lengths, label_bytes in [(b"\1", b"a"), (b"\0", b""), (b"\1\0", b""), (b"\1\0", b"ab"), (b"\1\0", b"a"), (b"\0\1", b"a"), (b"\1\1", b"ab"),
                                 (b"\2\0", b"ab"), (b"\1\0\0\0", b"a"), (b"\1\1\0", b"ab")]:
        print_add(fresh, full, vector, lengths, label_bytes)
    print_add((2, 0, 0, 0, False), full, vector, b"", b"a")
    print_add((2, 0, 0, 0, False), full, vector, b"\1", b"a")
    for state, lengths, label_bytes in [((1, 0, 0, 0, False), b"", b""), ((2, 0, 0, 0, False), b"", b""), ((2, 2, 0, 0, False), b"\1\0", b"a"),
                                        ((1, 2, 0, 0, False), b"", b""), ((1, 1, 0, 0, False), b"\1\1", b"ab"),
                                        ((1, 1, 0, 0, False), b"\1\0\1\0", b"ab"), (fresh, bytes(6), b"")]:
        print_add(state, full, vector, lengths, label_bytes)
    # label text: what fits and what does not, with and without bytes held; 9, 10 and 11 before 20
    for state, lengths, label_bytes in [(fresh, b"\3\0\0\1", b"abcd"), (fresh, b"\3\0\0\2", b"abcde"), ((1, 0, 0, 2, False), b"\1\1", b"ab"),
                                        ((1, 0, 0, 3, False), b"\1\1", b"ab"), ((1, 1, 0, 4, False), b"\0\0", b""), ((1, 1, 0, 4, False), b"\1\0", b"a"),
                                        ((1, 1, 0, 1, False), b"\0\3", b"abc"), (fresh, b"\5", b"abcde"), ((2, 0, 0, 4, False), b"\1\0", b"a"),
                                        ((1, 2, 0, 4, False), b"\1\0", b"a")]:
        print_add(state, full, vector, lengths, label_bytes)

    for state, lent in [((3, 0, 0, 0, False), (0, 0, 0, 0)), ((0, 0, 1, 0, False), full), ((0, 0, 0, 5, False), full), (built, (7, 21, 6, 4)),
                        ((1, 0, 0, 0, False), (8, 20, 6, 4)), (fresh, (8, 21, 5, 4)), (fresh, (8, 21, 6, 3)), (built, sizes), (fresh, sizes),
                        ((0, 2, 0, 0, False), sizes)]:
        print_take_back(state, lent, (0, 0))
    for vectors, entries, owners in [(1, 0, (0, 0)), (1, 2, (0, 0)), (2, 0, (1, 1)), (2, 1, (1, 1)), (2, 2, (1, 1)), (2, 2, (0, 1)), (2, 2, (1, 0)),
                                     (2, 2, (0, 0)), (2, 2, (1, 2)), (2, 2, (2**32 - 1, 1))]:
        print_take_back((vectors, entries, 0, 4, False), sizes, owners)
    # the start of the first entry that goes, against the bytes held
    for held, owners, starts in [(4, (0, 1), (0, 5)), (4, (0, 1), (0, 4)), (4, (0, 1), (9, 0)), (4, (1, 1), (2, 0)), (4, (1, 1), (2**32 - 1, 0)), (0, (0, 1), (0, 3))]:
        print_take_back((2, 2, 0, held, False), sizes, owners, starts)

    two, tree = (2, 0, 0, 0, False), (2, 0, 1, 0, True)
    # 4 and 3 before 24, whether a vector has the id or not
    for state, lent, ids in [((3, 0, 0, 0, False), (0, 0, 0, 0), (77, 77)), ((3, 0, 0, 0, False), full, (76, 78)), ((0, 0, 1, 0, False), full, (77, 77)),
                             ((2, 0, 0, 0, True), full, (77, 77)), ((2, 0, 0, 5, False), full, (77, 77)), (two, (7, 21, 6, 4), (77, 77)),
                             (tree, (8, 20, 6, 4), (77, 77)), (two, (8, 21, 5, 4), (76, 78)), (fresh, (8, 21, 6, 3), (76, 78)), (fresh, sizes, (77, 77)),
                             (two, sizes, (76, 78)), (tree, full, (76, 78)), ((1, 0, 0, 0, False), full, (76, 77))]:
        print_withdraw(state, lent, ids, (1, 1))
    # one vector or both, held or not, with marks of any number
    for state, lent, ids, marks in [(two, sizes, (77, 77), (1, 1)), (tree, sizes, (77, 77), (1, 1)), ((2, 2, 0, 4, False), full, (77, 78), (1, 1)),
                                    (tree, full, (76, 77), (1, 1)), ((1, 0, 0, 0, False), full, (77, 77), (1, 1)), (two, full, (77, 77), (2, 2**32 - 1)),
                                    (two, full, (77, 77), (0, 1)), (tree, full, (77, 76), (0, 0)), (two, full, (65613, 77), (3, 3))]:
        print_withdraw(state, lent, ids, marks)


main()
