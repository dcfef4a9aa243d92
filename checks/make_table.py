#!/usr/bin/env python3
"""Writes the table of roots: crates/lower_roots/src/lib.rt, entries 0 to 511, and
crates/upper_roots/src/lib.rt, entries 512 to 1,023.

    checks/make_table.py             writes both
    checks/make_table.py --check     says whether they are what this writes
    checks/make_table.py --misses    tries every number that an f32 leads to, and counts those for
                                     which the proposal is not the root (half a minute)

A number of the table has 64 binary digits. The first 16 are e, the largest whole number with e·e at most
i·2^20. Behind it stand rest, slope and bend, of 16, 22 and 10 digits, by which an estimate that starts
from e is improved. An f32 above zero leads to a whole number v from 2^23 up to 2^25, even where it is not
below 2^24, and its root's 24 digits are those of the root of v·2^23. With i = v / 2^15, t = v mod 2^15 and
w the number of entry i, the proposal is

    (w / 2^16 + slope·t + bend·(t·(2^15 - t) / 2^13)) / 2^23

in whole numbers: the root at the entry, the chord over the entry's 2^15 numbers, and how far the root
bends away from it. w / 2^16 is e·2^32 + rest·2^16 and a few digits of slope, which are reckoned with, as
is half a unit, so that the last division rounds to the nearest. No v is below 2^23: entries below 256
have e alone.

Everything is worked out in whole numbers (math.isqrt): running this again gives the same bytes.
"""

import math
import sys
from pathlib import Path

CRATES = Path(__file__).resolve().parent.parent / "crates"
STEPS = 1 << 15  # numbers v to an entry
FINE = 23  # binary digits behind the point of an estimate
HALVES = [("lower", 0), ("upper", 512)]


def largest(i):
    """The largest e with e·e at most i·2^20."""
    return math.isqrt(i << 20)


def fine_root(v):
    """The root of v·2^23, with FINE digits behind the point."""
    return math.isqrt(v << (23 + 2 * FINE))


def bulge(t):
    return t * (STEPS - t) >> 13


def improved(i):
    """rest, slope and bend of entry i: those with the least error over the entry."""
    first, middle, last = (fine_root(i * STEPS + t) for t in (0, STEPS // 2, STEPS))
    chord = (last - first) // STEPS
    bend = (middle - (first + last) // 2) // bulge(STEPS // 2)
    tried = [(t, bulge(t), fine_root(i * STEPS + t)) for t in range(0, STEPS + 1, STEPS // 64)]
    best = None
    for s in range(chord - 1, chord + 3):
        for b in range(max(bend - 1, 0), bend + 3):
            off = [r - s * t - b * u for t, u, r in tried]
            middle = (max(off) + min(off)) // 2 + (1 << (FINE - 1)) - (largest(i) << 32) - (s >> 6)
            rest = min((middle + (1 << 15)) >> 16, (1 << 16) - 1)
            wide = max(off) - min(off) + 2 * abs(middle - (rest << 16))
            if best is None or wide < best[0]:
                best = (wide, rest, s, b)
    _, rest, s, b = best
    assert 0 <= rest and s < 1 << 22 and b < 1 << 10, (i, rest, s, b)
    return rest, s, b


def number(i):
    """The table's number at i."""
    rest, slope, bend = improved(i) if i >= 256 else (0, 0, 0)
    return largest(i) << 48 | rest << 32 | slope << 10 | bend


def proposed(table, v):
    """What `root_table::proposed` gives."""
    w, t = table[v // STEPS], v % STEPS
    return ((w >> 16) + (w >> 10) % (1 << 22) * t + w % (1 << 10) * bulge(t)) >> FINE


def root(v):
    """The whole number next to the root of v·2^23."""
    r = math.isqrt(v << 23)
    return r if (v << 23) - r * r <= r else r + 1


def text(table, name, first):
    parts = lambda w: (w >> 48, w >> 32 & 0xFFFF, w & 0xFFFFFFFF)
    arms = "".join("        %d => 0x%04x_%04x_%08x,\n" % (k, *parts(table[first + k])) for k in range(512))
    return TEXT % {
        "name": name,
        "first": "{:,}".format(first),
        "last": "{:,}".format(first + 511),
        "i": "k" if first == 0 else "(k + %d)" % first,
        "uses": "◌<◌" if first == 0 else "◌+◌, ◌<◌",
        "k": "k" if first == 0 else "k + %d" % first,
        "arms": arms,
    }


TEXT = """// The %(name)s half of the table of roots (R37): entries %(first)s to %(last)s. Made by checks/make_table.py.
//
// Each number begins with the entry, four hexadecimal digits; what stands behind it improves an estimate
// that starts there (`root_table::proposed`). A `match` whose arms are constants is compiled to a table in
// the program's read-only data; a `const` array would be built anew on the stack at each use.
#![tactic(auto)]

ghost use Rattle.std.specs.Prelude.{%(uses)s};
ghost use Rattle.numbers.specs.Proposed.{IsEntry, entry_in};

// The number of entry %(k)s.
pub fn number_of(k: u32) -> u64
    requires { k < 512 }
    ensures { IsEntry %(i)s (entry_in result) }
{
    match k {
%(arms)s        _ => root_entries::worked_out(%(k)s),
    }
}
"""


def misses(table):
    count = far = 0
    leads = [range(1 << 23, 1 << 24), range(1 << 24, 1 << 25, 2)]
    for v in (v for some in leads for v in some):
        off = abs(proposed(table, v) - root(v))
        count += off != 0
        far = max(far, off)
    print("%d of %d proposals are not the root, by %d at most" % (count, 1 << 24, far))


def main():
    table = [number(i) for i in range(1024)]
    files = {CRATES / (name + "_roots") / "src" / "lib.rt": text(table, name, first) for name, first in HALVES}
    if sys.argv[1:] == ["--misses"]:
        misses(table)
    elif sys.argv[1:] == ["--check"]:
        other = [str(f) for f, t in files.items() if f.read_text() != t]
        print("\n".join(f + " is not what this writes" for f in other) or "make_table: both halves are what this writes")
        sys.exit(1 if other else 0)
    elif sys.argv[1:]:
        sys.exit(__doc__)
    else:
        for f, t in files.items():
            f.write_text(t)


if __name__ == "__main__":
    main()
