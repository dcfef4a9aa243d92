#!/bin/sh
# Draws the crates of crates.txt as floors of a house: a crate stands one floor above the highest of
# those that it rests on. Behind each stands what it rests on and nothing below it does.
#   checks/floors.sh            writes the picture
#   checks/floors.sh --check    says whether CONTRIBUTING.md has this picture
set -eu
root=$(CDPATH='' cd -- "$(dirname -- "$0")/.." && pwd -P)

draw() {
    awk '
    function floor_of(n,    a, k, m, f) {
        if (n in level) return level[n]
        f = 0
        m = split(deps[n], a, " ")
        for (k = 1; k <= m; k++) if (a[k] in deps && floor_of(a[k]) + 1 > f) f = floor_of(a[k]) + 1
        return level[n] = f
    }
    # whether b is below n by way of another crate that n rests on
    function reached(n, b,    a, k, m) {
        m = split(deps[n], a, " ")
        for (k = 1; k <= m; k++) if (a[k] == b) return 1
        for (k = 1; k <= m; k++) if (a[k] in deps && reached(a[k], b)) return 1
        return 0
    }
    function rests(n,    a, k, j, m, out, other) {
        m = split(deps[n], a, " ")
        out = ""
        for (k = 1; k <= m; k++) {
            if (!(a[k] in deps)) continue
            other = 0
            for (j = 1; j <= m; j++) if (j != k && a[j] in deps && reached(a[j], a[k])) other = 1
            if (!other) out = out (out == "" ? "" : ", ") a[k]
        }
        return out == "" ? "the ground" : out
    }
    { sub(/#.*/, "") }
    /:/ { n = $1; sub(/:.*/, "", n); d = $0; sub(/^[^:]*:/, "", d); deps[n] = d; names[++count] = n }
    END {
        for (k = 1; k <= count; k++) {
            if (floor_of(names[k]) > top) top = level[names[k]]
            if (length(names[k]) > wide) wide = length(names[k])
        }
        for (f = top; f >= 0; f--) {
            for (k = 1; k <= count; k++) if (level[names[k]] == f) printf "    %2d  %-" wide "s on %s\n", f, names[k], rests(names[k])
        }
    }' "$root/crates.txt"
}

case "${1:-}" in
'') draw ;;
--check)
    have=$(sed -n '/^<!-- floors -->$/,/^<!-- end -->$/p' "$root/CONTRIBUTING.md" | sed -e '/^<!--/d' -e '/^$/d')
    if [ "$have" = "$(draw)" ]; then echo 'CONTRIBUTING.md has the picture of crates.txt'; else
        echo 'floors: the picture in CONTRIBUTING.md is not that of crates.txt: paste what checks/floors.sh writes' >&2
        exit 1
    fi
    ;;
*)
    echo 'usage: checks/floors.sh [--check]' >&2
    exit 2
    ;;
esac
