#!/usr/bin/env python3
"""Writes the list of square roots that the program `roots` replays: crates/roots/stdin, and with
the number of its pairs crates/roots/stdout, what the program has to write.

    checks/make_roots.py [PUBLISHED]

A line is `aaaaaaaa rrrrrrrr`, an f32 argument and its root as bit patterns in hexadecimal; a line
that starts with '#' is a comment. First come the lines of PUBLISHED, a file of published roots in
the same form, unchanged. Without that word they are taken from the list as it stands. Then come
groups made here: NaN, the infinities and zeros, numbers below zero, the ends of each exponent's
range, the powers of two with their neighbours, random patterns from a fixed seed, the ends of each
entry of the table of roots, and numbers for which the table's proposal is refused (make_table.py
has the table).

A root made here is worked out in whole numbers (math.isqrt) and rounded to nearest, a tie to even.
No float is used. A root that is a NaN is written 7fc00000. Running this again gives the same bytes.
"""

import math
import random
import sys
from pathlib import Path

sys.dont_write_bytecode = True  # checks/ holds sources alone
import make_table

CRATE = Path(__file__).resolve().parent.parent / "crates" / "roots"
NAN = 0x7FC00000
INF = 0x7F800000
SIGN = 0x80000000
ONE = 1 << 23  # one step of the exponent's field
SEED = 20261115
RANDOM = 10000
REFUSED = 64  # in each half of the table


def root(b):
    """The pattern of the root of the f32 with the pattern b."""
    size = b % SIGN
    if size > INF:
        return NAN
    if size == 0:
        return b
    if b >= SIGN:
        return NAN
    if b == INF:
        return INF
    # the number is m * 2^e
    m, e = (b % ONE, -149) if b < ONE else (ONE + b % ONE, b // ONE - 150)
    # 64 bits more, or 65 so that the exponent is even: the whole root then has more than 24 digits
    up = 64 + (e % 2)
    whole = math.isqrt(m << up)
    exact = whole * whole == m << up
    e = (e - up) // 2
    # the root is whole * 2^e, and a little more where not exact; 24 digits stay
    drop = whole.bit_length() - 24
    kept, rest, half = whole >> drop, whole % (1 << drop), 1 << (drop - 1)
    if rest > half or (rest == half and (not exact or kept % 2 == 1)):
        kept += 1
    # kept is at most 2^24, and a carry into the exponent's field is then right too
    return (e + drop + 149) * ONE + kept


def published(path):
    """The lines of the published roots: of their own file, or at the head of the list."""
    if path is not None:
        return Path(path).read_text().splitlines()
    taken = []
    for line in (CRATE / "stdin").read_text().splitlines():
        if line.startswith("#") and any(not old.startswith("#") for old in taken):
            break
        taken.append(line)
    return taken


def entry_ends():
    """The least and the largest argument of each entry of the table that an f32 leads to: in [1, 2),
    whose exponent's field is odd, for entries below 512, and in [2, 4), where it is even, for the rest."""
    for i in range(256, 1024):
        # v, of which entry i has the first ten digits, is m or 2m
        field, each = (127, make_table.STEPS) if i < 512 else (128, make_table.STEPS // 2)
        for m in (i * each, i * each + each - 1):
            yield field * ONE + m - ONE


def accepts(n, s):
    """What `root_check::accepts_root` gives."""
    near = s * s - s < n <= s * s + s
    return near and (ONE < s < 2 * ONE or (s == ONE and s * s <= n))


def refused():
    """The first arguments of each half for which the table's proposal is refused: a subnormal where
    one has the same digits, else in [1, 2) or [2, 4)."""
    table = [make_table.number(i) for i in range(1024)]
    for twice, field in ((1, 127), (2, 128)):
        # the least shift that leads a subnormal to this half: 2 where v is m, 1 where it is 2m
        up = 3 - twice
        found = 0
        m = ONE
        while found < REFUSED:
            v = m * twice
            if not accepts(v * ONE, make_table.proposed(table, v)):
                found += 1
                yield m >> up if m % (1 << up) == 0 else field * ONE + m - ONE
            m += 1


def groups():
    """The groups made here: what the comment says, and the arguments."""
    digits = [1, 2, 0x155555, 0x1FFFFF, 0x200000, 0x3FFFFF]
    nans = [INF + d for d in digits] + [NAN + d for d in [0] + digits]
    yield "NaN, signalling and quiet, with either sign", nans + [SIGN + b for b in nans]
    yield "both infinities and both zeros", [INF, SIGN + INF, 0, SIGN]
    below = [1, 2, 3, ONE // 2, ONE - 1, ONE, ONE + 1, 0x2F800000, 0x3F7FFFFF, 0x3F800000]
    below += [0x40000000, 0x40800000, 0x7E800000, INF - 1]
    yield "below zero: subnormal and normal numbers", [SIGN + b for b in below]
    ends = [1, ONE - 1]
    for field in range(1, 256):
        ends += [field * ONE, field * ONE + ONE - 1]
    yield "the least and the largest pattern of each exponent: 0 (subnormal), 1 to 254, 255", ends
    powers = [1 << k for k in range(23)] + [field * ONE for field in range(1, 255)]
    near = sorted({b + d for b in powers for d in (-1, 0, 1)})
    yield "every power of two, subnormal ones too, and its two neighbours", near
    draw = random.Random(SEED)
    some = []
    for _ in range(RANDOM):
        b = draw.getrandbits(31)
        some.append(b + SIGN if draw.getrandbits(2) == 0 else b)
    yield f"{RANDOM} random patterns, a quarter of them with a sign; seed {SEED}", some
    yield "the ends of each entry of the table of roots", entry_ends()
    yield f"the first {REFUSED} of each half of the table whose proposal is refused", refused()


def main():
    if len(sys.argv) > 2:
        sys.exit(__doc__)
    lines = published(sys.argv[1] if len(sys.argv) == 2 else None)
    for comment, arguments in groups():
        lines.append("# " + comment)
        lines += [f"{b:08x} {root(b):08x}" for b in arguments]
    pairs = sum(not line.startswith("#") for line in lines)
    (CRATE / "stdin").write_text("\n".join(lines) + "\n")
    (CRATE / "stdout").write_text(f"{pairs} compared, 0 differ\n0 bad lines\n")
    print(f"{pairs} pairs, {len(lines) - pairs} comments")


main()
