#!/usr/bin/env python3
"""What crates/image_readings reads and must print, by the format in document 01, module 7, and rows 15 and 11 to 14 of its table:
`python3 tools/image_readings.py`, which writes crates/image_readings/stdin and crates/image_readings/stdout.

Each image stands after six bytes: its length, and the limits of members and of rounds that it is read into, two bytes each. A line for
each: `refused` and the number; or P as `k:v`, K in order of first appearance, and T, all rounds of which are poster 0's. Then the limits of
the map that is left; and, where it was not refused, the length of the image written again, and how many of its bytes, and of those past it,
are wrong: none.
"""
import os
import random
import struct

ROUNDS, MEMBERS, POSTERS = 1024, 256, 16
random.seed(7)


def image(pairs, n=None, m=None):
    n = len(pairs) if n is None else n
    m = len({k for k, _ in pairs}) if m is None else m
    keys = [k for k, _ in pairs]
    values = [v for _, v in pairs]
    return struct.pack(f"<II{len(keys)}Q{len(values)}Q", n, m, *keys, *values)


def refusal(s, members, rounds):
    if members > MEMBERS or rounds > ROUNDS:
        return 15
    if len(s) < 8:
        return 11
    n, m = struct.unpack_from("<II", s)
    if n > rounds or m > members:
        return 12
    if len(s) != 8 + 16 * n:
        return 13
    if m != len(set(struct.unpack_from(f"<{n}Q", s, 8))):
        return 14
    return None


def line(s, members, rounds):
    refused = refusal(s, members, rounds)
    if refused == 15:
        return "refused 15 limits 0 0"
    limits = f"limits {members} {rounds}"
    if refused:
        return f"refused {refused} {limits}"
    n, _ = struct.unpack_from("<II", s)
    keys = struct.unpack_from(f"<{n}Q", s, 8)
    values = struct.unpack_from(f"<{n}Q", s, 8 + 8 * n)
    words = ["list"] + [f"{k}:{v}" for k, v in zip(keys, values)] + ["keys"] + [str(k) for k in dict.fromkeys(keys)]
    taken = [str(n)] + ["0"] * (POSTERS - 1)
    return " ".join(words + ["taken"] + taken + [limits, "image", str(len(s)), "wrong 0"])


TOP = 2**64 - 1
SMALL = [(7, 10), (9, 20), (7, 11)]
ENDS = [(0, TOP), (TOP, 0), (0, 0), (2**63, 1), (TOP, TOP)]
FULL = [(random.randrange(2**64) if i < MEMBERS else i * 31 % 977, random.randrange(2**64)) for i in range(ROUNDS)]
FULL = [FULL[i] if i < MEMBERS else (FULL[FULL[i][0] % MEMBERS][0], FULL[i][1]) for i in range(ROUNDS)]
CROWD = [(i, i) for i in range(MEMBERS + 1)]

images = [image(p) for p in ([], SMALL, ENDS, FULL, FULL[:1023], CROWD[:MEMBERS])]
# cut at every length, and one byte longer
for pairs in (SMALL, ENDS):
    whole = image(pairs)
    images += [whole[:i] for i in range(len(whole))] + [whole + b"\0"]
for cut in (1, 8, 16, 8192, 16384):
    images.append(image(FULL)[:-cut])
images.append(image(FULL) + b"\0")
# sizes out of range, and sizes that the rest belies
for n in (0, 1, 2, 4, 1023, 1024, 1025, 2**16, 2**24, 2**32 - 1):
    images.append(image(SMALL, n=n))
for m in (0, 1, 3, 255, 256, 257, 2**16 + 2, 2**24 + 2, 2**32 - 1):
    images.append(image(SMALL, m=m))
images.append(image([], m=1))
images.append(image(SMALL, n=1025, m=257))
# one distinct member too many, said truly, and said as 256 and 0
images += [image(CROWD), image(CROWD, m=256), image(CROWD, m=0)]
images += [image(FULL, m=255), image(FULL, m=0)]
# few rounds, many orders of appearance
for _ in range(200):
    pairs = [(random.randrange(5), random.randrange(100)) for _ in range(random.randrange(9))]
    images.append(image(pairs, m=random.choice([None, None, None, 0, 1, 2, 3])))

readings = [(s, MEMBERS, ROUNDS) for s in images]
# limits that hold the sizes, one below and one above; cut and lengthened, with too many and too few members said
for pairs, members, rounds in (([], 0, 0), (SMALL, 2, 3), (ENDS, 3, 5), (FULL, MEMBERS, ROUNDS), (CROWD[:MEMBERS], MEMBERS, MEMBERS)):
    whole = image(pairs)
    for more in (-1, 0, 1):
        for more2 in (-1, 0, 1):
            # of the longest image, one of the limits at a time
            if members + more >= 0 and rounds + more2 >= 0 and not (pairs is FULL and abs(more) == abs(more2)):
                readings.append((whole, members + more, rounds + more2))
    if len(pairs) < ROUNDS:
        readings += [(s, members, rounds) for s in (b"", whole[:7], whole[:-1], whole + b"\0", image(pairs, m=members + 1), image(pairs, m=max(members - 1, 0)))]
# 0 of one, and of both
for limits in ((0, 0), (0, 5), (5, 0)):
    readings += [(s, *limits) for s in (b"", image([]), image([(7, 10)]), image([(7, 10)], m=0), image([], m=1), image([(7, 10)], n=0))]
# more distinct members than the limit, where m is within it
readings += [(image([(1, 1), (2, 2), (3, 3)], m=m), 2, 3) for m in (2, 3, 1, 0)]
# 15 comes before the other rows, whatever the bytes are
for limits in ((257, 1024), (256, 1025), (257, 1025), (257, 0), (0, 1025), (512, 5), (5, 2048), (65535, 65535), (256 + 2, 3), (2, 1024 + 3)):
    readings += [(s, *limits) for s in (b"", image(SMALL)[:7], image([]), image(SMALL), image(SMALL)[:-1], image(SMALL, n=1025), image(SMALL, m=3))]
# few rounds into small limits
for _ in range(200):
    pairs = [(random.randrange(5), random.randrange(100)) for _ in range(random.randrange(9))]
    readings.append((image(pairs, m=random.choice([None, None, None, None, 1, 2, 3])), random.randrange(7), random.randrange(10)))

here = os.path.join(os.path.dirname(os.path.abspath(__file__)), "..", "crates", "image_readings")
with open(os.path.join(here, "stdin"), "wb") as f:
    f.write(b"".join(struct.pack("<HHH", len(s), *limits) + s for s, *limits in readings))
with open(os.path.join(here, "stdout"), "w") as f:
    f.write("".join(line(*reading) + "\n" for reading in readings))
