"""Counts the answers of a reader to every one-byte damage of one image of D = 2, straight from document 01 and request R-1.

The numbers that it prints stand in crates/vectors/stdout. It also reads images.txt, as a check of itself.
"""
import os

IMAGE = bytes.fromhex(
    "01020e000c001a0020003a00100002000000000000000001884408030000c786e374c78600000000000015030001"
    "927a927a927a006d0400000000000300030002000200030003000100")

NAMED = [*range(0, 7), *range(8, 20), *range(20, 26), *range(30, 36), *range(40, 46)]
OWN = [5, 6, 8, 9, 10, 17, *range(20, 26), *range(30, 36)]
SEEN = [x + i for x in (20, 30, 40) for i in (1, 2, 3, 5)]
CANDIDATE = [x + i for x in (20, 30, 40) for i in (2, 3)]
CANDIDATE_SPIN = [x + 3 for x in (20, 30, 40)]
PORT = [1, 1, 1, 1, 2, 2, 2, 1, 2, 1, 2]


def number(data, at, width):
    return int.from_bytes(data[at:at + width], "little")


def row(data, at, widths):
    values = []
    for width in widths:
        values.append(number(data, at, width))
        at += width
    return values


def answer(data):
    """The number that the reader answers."""
    if len(data) < 14 or not 1 <= data[1] <= 64:
        return 11
    d = data[1]
    version, width = (1, 2) if d <= 16 else (2, 8)
    sets = width * (2 + 3 * d)
    if data[0] != version or len(data) != 26 + 16 * d + sets:
        return 11
    if row(data, 2, [2] * 6) != [14, 12, 26, 16 * d, 26 + 16 * d, sets]:
        return 11
    return 0 if good(data, d, width) else 1


def good(data, d, width):
    active, taken, owner, spin = row(data, 14, [8, 1, 1, 2])
    ports = [row(data, 26 + 16 * k, PORT) for k in range(d)]
    made = [p[4] for p in ports]
    shared = row(data, 26 + 16 * d, [width] * 2)
    copies = [row(data, 26 + 16 * d + width * (2 + 3 * k), [width] * 3) for k in range(d)]
    if taken > 1 or owner >= d or spin > made[owner]:
        return False
    if any(m >> d for m in [active, *shared, *sum(copies, [])]):
        return False
    for k, (point, status, flag, value, made_k, go, own, seen, seen_spin, candidate, candidate_spin) in enumerate(ports):
        if point not in NAMED or status > 3 or flag > 1 or value > 1 or seen >= d or candidate >= d:
            return False
        if go > made_k or own > made_k or seen_spin > made[seen] or candidate_spin > made[candidate]:
            return False
        if point == 0 and flag:
            return False
        if point == 6 and active >> k & 1 or point == 15 and not active >> k & 1:
            return False
        if made_k == 0 and (value or copies[k][2]):
            return False
        if point in (25, 35, 45) and not seen_spin:
            return False
        if own and point not in OWN or (seen or seen_spin) and point not in SEEN:
            return False
        if candidate and point not in CANDIDATE or candidate_spin and point not in CANDIDATE_SPIN:
            return False
    return True


def main():
    here = os.path.dirname(os.path.abspath(__file__))
    with open(os.path.join(here, "../crates/vectors/data/images.txt")) as lines:
        for line in lines:
            image, wanted, *_ = line.split()
            data = b"" if image == "-" else bytes.fromhex(image)
            assert answer(data) == int(wanted), line
    counts = {0: 0, 1: 0, 11: 0}
    for i in range(len(IMAGE)):
        for value in range(256):
            if value != IMAGE[i]:
                counts[answer(IMAGE[:i] + bytes([value]) + IMAGE[i + 1:])] += 1
    print("damages: of", sum(counts.values()), "damages of one byte of an image", counts[0], "pass,", counts[1], "are BAD TABLE,", counts[11], "BAD IMAGE")


main()
