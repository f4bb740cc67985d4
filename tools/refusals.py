"""Every refusal that an echo file can cause, at its boundary, and what is printed of each file. The expected text is reasoned from document 01 (its table
of refusals, 'Order', and 'The echo file and its printer'); no program made it. 3, 4, 6, 7, 9, 15, 19 and 20 cannot come from a file: there is room for the
text of 256 labels of 255 bytes, so that 11 comes before 20."""
from echo_file import bits, filtered, settings, unfiltered, vector

CASES = []

NAN, INFINITY, MINUS_INFINITY, LARGEST = bits(0x7FC00000), bits(0x7F800000), bits(0xFF800000), bits(0x7F7FFFFF)
# D 1 and D 2, one leaf for up to four vectors, no budget that is used up
ONE = settings(1, 2, 4, 100, 4)
TWO = settings(2, 2, 4, 100, 4)
# one vector with the label `a`, a search for it, and the answer: one node is opened
SEVEN = vector(7, [b"a"], [1])
ASK = filtered(1, b"a", [1])
ANSWER = "7 00000000\nwhole 1\n"


def case(name, file, text):
    CASES.append((name, file, text))


def refused(name, number, file, before=""):
    case(name, file, f"{before}refused {number}\n")


# ---- 1 and 2: settings. Settings that are accepted show by the next record, a search of no vector: 12.
NOTHING_YET = b"\x5a\x05\x01\x00"


def setting(name, number, *values):
    dimension = values[0] if 1 <= values[0] <= 16 else 0
    refused(f"settings, {name}", number, settings(*values) + NOTHING_YET + bytes(4 * dimension))


setting("D 0", 1, 0, 2, 1, 5, 4)
setting("D 1", 12, 1, 2, 1, 5, 4)
setting("D 16", 12, 16, 2, 1, 5, 4)
setting("D 17, for which there is no room", 2, 17, 2, 1, 5, 4)
setting("D 128", 2, 128, 2, 1, 5, 4)
setting("D 129", 1, 129, 2, 1, 5, 4)
setting("the largest D", 1, 2**32 - 1, 2, 1, 5, 4)
setting("D 0 and B 0: 1 before 2", 1, 0, 0, 1, 5, 4)
setting("D 129 and B 0: 1 before 2", 1, 129, 0, 1, 5, 4)
setting("D 17 and B 0", 2, 17, 0, 1, 5, 4)
setting("B 0", 2, 2, 0, 1, 5, 4)
setting("B 1", 12, 2, 1, 1, 5, 4)
setting("B 64", 12, 2, 64, 1, 5, 4)
setting("B 65", 2, 2, 65, 1, 5, 4)
setting("leaf size 0", 12, 2, 2, 0, 5, 4)
setting("leaf size 4,096", 12, 2, 2, 4096, 5, 4)
setting("leaf size 4,097", 2, 2, 2, 4097, 5, 4)
setting("ef 0", 12, 2, 2, 1, 0, 4)
setting("ef 65,537", 12, 2, 2, 1, 65537, 4)
setting("ef 65,538", 2, 2, 2, 1, 65538, 4)
setting("beam 0", 12, 2, 2, 1, 5, 0)
setting("beam 65,535", 12, 2, 2, 1, 5, 65535)
setting("beam 65,536", 2, 2, 2, 1, 5, 65536)
setting("every largest", 12, 16, 64, 4096, 65537, 65535)
# a record is carried out before the next is looked at
refused("settings with D 0, then an unknown mark", 1, settings(0, 2, 1, 5, 4) + b"\x5a\x03")

# ---- 5: an add after the first answered search, which builds
refused("a vector after a search", 5, ONE + SEVEN + ASK + SEVEN, ANSWER)
refused("a vector after a search without a hit", 5, ONE + SEVEN + filtered(1, b"b", [1]) + SEVEN, "whole 1\n")
refused("a vector after an unfiltered search", 5, ONE + SEVEN + unfiltered(1, [1]) + SEVEN, ANSWER)
refused("5 before 8", 5, ONE + SEVEN + ASK + vector(8, [], [NAN]), ANSWER)
refused("16 before 5: the vector is cut", 16, ONE + SEVEN + ASK + SEVEN[:-1], ANSWER)
case("searches after a search", ONE + SEVEN + ASK + ASK, ANSWER + ANSWER)

# ---- 8: a component infinite or NaN
for name, component in [("NaN", NAN), ("NaN, lowest pattern", bits(0x7F800001)), ("NaN, all ones", bits(0xFFFFFFFF)),
                        ("infinity", INFINITY), ("minus infinity", MINUS_INFINITY)]:
    refused(f"a vector with {name} first", 8, TWO + vector(7, [b"a"], [component, 1]))
    refused(f"a vector with {name} last", 8, TWO + vector(7, [b"a"], [1, component]))
    refused(f"a query with {name} first", 8, TWO + vector(7, [b"a"], [1, 0]) + filtered(1, b"a", [component, 1]))
    refused(f"an unfiltered query with {name} last", 8, TWO + vector(7, [b"a"], [1, 0]) + unfiltered(1, [1, component]))
# The square of the largest float is infinite, so every component is divided by infinity: zeros, and the distance is 1.
case("the largest float", ONE + vector(7, [b"a"], [LARGEST]) + ASK, "7 3f800000\nwhole 1\n")
case("the largest float asked", ONE + SEVEN + filtered(1, b"a", [LARGEST]), "7 3f800000\nwhole 1\n")
refused("12 before 8: the search builds first", 12, ONE + unfiltered(1, [NAN]))
refused("8 before 14", 8, ONE + SEVEN + filtered(257, b"a", [NAN]))

# ---- 10: the 129th vector. All are equal to the query; ids fall, hits go by id.
FULL = settings(1, 2, 4096, 100, 4) + b"".join(vector(128 - i, [], [1]) for i in range(128))
ALL = "".join(f"{i} 00000000\n" for i in range(1, 129)) + "whole 1\n"
case("128 vectors", FULL + unfiltered(256, [1]), ALL)
refused("129 vectors", 10, FULL + vector(0, [], [1]))
refused("8 before 10", 8, FULL + vector(0, [], [INFINITY]))
refused("5 before 10", 5, FULL + unfiltered(0, [1]) + vector(0, [], [1]), "whole 1\n")

# ---- 11: over 256 label entries
MANY = ONE + vector(1, [b"a"] * 255, [1])
case("256 entries, then a vector without a label", MANY + SEVEN + vector(8, [], [1]) + filtered(9, b"a", [1]), "1 00000000\n7 00000000\nwhole 1\n")
refused("257 entries, one too many", 11, MANY + SEVEN + SEVEN)
refused("257 entries, two at once", 11, MANY + vector(7, [b"a", b"b"], [1]))
refused("8 before 11", 8, MANY + SEVEN + vector(8, [b"a"], [NAN]))
refused("10 before 11", 10, settings(1, 2, 4, 5, 4) + b"".join(vector(i, [b"a", b"b"], [1]) for i in range(129)))

# ---- 12: a search of no vector
refused("a filtered search of no vector", 12, ONE + ASK)
refused("an unfiltered search of no vector", 12, ONE + unfiltered(1, [1]))
refused("12 before 14", 12, ONE + unfiltered(257, [1]))

# ---- 13: over 512 nodes. With leaf size 0 every branch goes down to depth 16, and D 16 has 32 directions, plus and minus each axis.
def axis(i):
    return [(1 if i < 16 else -1) * (j == i % 16) for j in range(16)]


AXES = b"".join(vector(i, [b"a"], axis(i)) for i in range(32))
# B 32: each direction is a cluster of its own, 1 node and 32 branches of 16.
refused("513 nodes", 13, settings(16, 32, 0, 65537, 4) + AXES + unfiltered(1, axis(0)))
refused("13 before 8", 13, settings(16, 32, 0, 65537, 4) + AXES + unfiltered(1, [NAN] * 16))
refused("13 before 14", 13, settings(16, 32, 0, 65537, 4) + AXES + unfiltered(257, axis(0)))
# B 31: the last direction is at distance 1 from centres 0 to 14 and 16 to 30 and joins the first; it parts from it one level deeper: 1 + 31 + 15 * 32.
case("512 nodes", settings(16, 31, 0, 65537, 4) + AXES + unfiltered(1, axis(0)), "0 00000000\nwhole 512\n")
# 01: one vector with leaf size 0 has 17 nodes, a chain; the last is the leaf.
case("17 nodes, ef 17", settings(1, 2, 0, 17, 4) + SEVEN + ASK, "7 00000000\nwhole 17\n")
case("17 nodes, ef 16", settings(1, 2, 0, 16, 4) + SEVEN + ASK, "cut 16\n")

# ---- 14: k over 256, also where fewer hits exist
case("k 256", ONE + SEVEN + filtered(256, b"a", [1]), ANSWER)
case("k 0", ONE + SEVEN + filtered(0, b"a", [1]), "whole 1\n")
refused("k 257", 14, ONE + SEVEN + filtered(257, b"a", [1]))
refused("k 65,535", 14, ONE + SEVEN + filtered(65535, b"a", [1]))
refused("k 257, unfiltered", 14, ONE + SEVEN + unfiltered(257, [1]))
refused("k 257 after an answer", 14, ONE + SEVEN + ASK + unfiltered(257, [1]) + ASK, ANSWER)

# ---- 16: an unknown mark, or the file ends inside a record
for mark in [b"\x5a\x00", b"\x5a\x03", b"\x5a\x06", b"\x5a\xff", b"\x5b\x01", b"\x00\x00", b"\x01\x5a"]:
    refused(f"mark {mark.hex(' ')} first", 16, mark + bytes(40))
    refused(f"mark {mark.hex(' ')} after a search", 16, ONE + SEVEN + ASK + mark + bytes(40), ANSWER)
for end in range(1, len(ONE)):
    refused(f"settings, {end} bytes of 22", 16, ONE[:end])
LABELS = vector(9, [b"a", b"", b"bcd"], [1, 2])
for end in range(1, len(LABELS)):
    refused(f"a vector, {end} bytes of {len(LABELS)}", 16, TWO + LABELS[:end])
BUILT = TWO + vector(7, [b"a"], [1, 0])
for record in [filtered(1, b"ab", [1, 0]), unfiltered(1, [1, 0])]:
    for end in range(1, len(record)):
        refused(f"a search, {end} bytes of {len(record)}", 16, BUILT + record[:end])
refused("a label count that the file does not hold", 16, TWO + b"\x5a\x02" + bytes(4) + b"\xff")
refused("label lengths that the file does not hold", 16, TWO + b"\x5a\x02" + bytes(4) + b"\xff" + b"\xff" * 255)
# content counts only once the record is complete
refused("16 before 14: the search is cut", 16, BUILT + unfiltered(257, [1, 0])[:-1])
refused("16 before 8: the vector is cut", 16, TWO + vector(7, [], [NAN, 1])[:-1])
refused("16 before 12: the search is cut", 16, TWO + unfiltered(1, [1, 0])[:-1])

# ---- 17: settings not first, or given again. Before settings D counts as 0 for where a record ends.
refused("a vector first", 17, vector(7, [b"a"], []))
refused("a vector first, floats and all", 17, vector(7, [b"a"], [1]) + ONE)
refused("a vector first, its label cut", 16, vector(7, [b"a"], [])[:-1])
refused("a filtered search first", 17, filtered(1, b"", []))
refused("a filtered search first, its label cut", 16, filtered(1, b"a", [])[:-1])
refused("an unfiltered search first", 17, unfiltered(1, []))
refused("an unfiltered search first, cut", 16, unfiltered(1, [])[:-1])
refused("a search of k 257 first", 17, unfiltered(257, []))
refused("a vector first, then an unknown mark", 17, vector(7, [], []) + b"\x5a\x03")
refused("settings again", 17, ONE + ONE)
refused("settings again, cut", 16, ONE + ONE[:-1])
refused("settings again, D 0", 17, ONE + settings(0, 2, 1, 5, 4))
refused("settings again, B 0", 17, ONE + settings(1, 0, 1, 5, 4))
refused("settings again after a vector", 17, ONE + SEVEN + ONE)
refused("settings again after a search", 17, ONE + SEVEN + ASK + ONE, ANSWER)

# ---- 18: over 65,536 bytes, decided before any record. One vector with 255 labels of 255 bytes, and a search for a label of 214.
LONG = ONE + vector(7, [b"a" * 255] * 255, [1]) + filtered(1, b"a" * 214, [1])
assert len(LONG) == 65536
case("65,536 bytes", LONG, "whole 1\n")
refused("65,537 bytes", 18, LONG + b"\x5a")

# ---- a label is its bytes (02, K4): labels of one hash, each of which finds its own; a zero byte behind them leaves their hash as it is
EIGHT_BYTES, LETTERS = bytes.fromhex("d56bb95342870836"), b"77kepQFQ8Kl"
LONGER = LETTERS + b"\0"


def each(*found):
    """What is printed of searches that find these documents, all at distance 0."""
    return "".join("".join(f"{document} 00000000\n" for document in documents) + "whole 1\n" for documents in found)


case("two labels of one hash", ONE + vector(7, [EIGHT_BYTES], [1]) + vector(8, [LETTERS], [1]) + filtered(9, EIGHT_BYTES, [1]) + filtered(9, LETTERS, [1]),
     each([7], [8]))
case("two labels of one hash on one vector", ONE + vector(7, [LETTERS], [1]) + vector(8, [EIGHT_BYTES, LETTERS], [1]) + filtered(9, EIGHT_BYTES, [1])
     + filtered(9, LETTERS, [1]) + filtered(9, LONGER, [1]), each([8], [7, 8], []))
case("a label and one that begins with it, of one hash", ONE + vector(7, [LONGER], [1]) + vector(8, [LETTERS], [1]) + filtered(9, LETTERS, [1])
     + filtered(9, LONGER, [1]), each([8], [7]))
case("a label and one that begins with it", ONE + vector(7, [b"silt"], [1]) + vector(8, [b"silt/"], [1]) + filtered(9, b"silt", [1]) + filtered(9, b"silt/", [1]),
     each([7], [8]))
case("64,771 bytes of label text, the last label found", ONE + vector(7, [b"a" * 255] * 254 + [b"b"], [1]) + filtered(9, b"b", [1]), each([7]))

# ---- labels and ids
case("the empty label", ONE + vector(7, [b""], [1]) + vector(8, [], [1]) + filtered(9, b"", [1]) + unfiltered(9, [1]),
     "7 00000000\nwhole 1\n7 00000000\n8 00000000\nwhole 1\n")
case("the largest id", ONE + vector(2**32 - 1, [b"a"], [1]) + ASK, "4294967295 00000000\nwhole 1\n")
case("one id twice: neighbours lose the later", ONE + SEVEN + SEVEN + filtered(9, b"a", [1]), ANSWER)
case("one id twice with another between", ONE + vector(7, [b"a"], [1]) + vector(8, [b"a"], [0]) + vector(7, [b"a"], [-1]) + filtered(9, b"a", [1]),
     "7 00000000\n8 3f800000\n7 40000000\nwhole 1\n")
