#!/bin/sh
# What each crate's check took, and which edits the gate tried, as a table: seconds by the clock, while as many
# checks ran side by side as checks/quiet.sh says.
#
#   checks/costs.sh [LOG..]    LOG is what `make prove` or `bash .ci/run` left; without it target/prove.log
#                              and target/gate.log, as far as they are there
#
# The seconds of a check are those of `make prove`; a crate that had not changed has none. What an edit takes
# today's `rt ci` does not say: the two columns on that are there only for a log that has it. A crate without
# edits has none; an edit that was not refused, or did not reach the prover, is named below the table.
set -eu
root=$(CDPATH='' cd -- "$(dirname -- "$0")/.." && pwd -P)
if [ $# -eq 0 ]; then
    for log in "$root/target/prove.log" "$root/target/gate.log"; do
        [ ! -f "$log" ] || set -- "$@" "$log"
    done
    [ $# -gt 0 ] || {
        echo "costs: there is no target/prove.log and no target/gate.log: make prove and bash .ci/run leave them" >&2
        exit 2
    }
fi
for log in "$@"; do
    [ -f "$log" ] || {
        echo "costs: there is no $log" >&2
        exit 2
    }
done

awk '
    # the seconds at the end of a line: (12 s) or (first at ..; 12 s) or (exit 1, 12 s)
    function seconds(    s) { s = $0; sub(/ s\)$/, "", s); sub(/.*[^0-9]/, "", s); return s + 0 }
    function add(n) { if (!(n in known)) { known[n] = 1; list[++count] = n } }

    /^rt: [A-Za-z0-9_]+ (unchanged|is kept: .*)$/ { add($2); next }
    /^rt: [A-Za-z0-9_]+ proved$/ { add($2); next }
    /^rt: [A-Za-z0-9_]+ proved \([0-9]+ s\)$/ { add($2); check[$2] = seconds(); next }
    /^rt: [A-Za-z0-9_]+ NOT PROVED/ { add($2); if (/ s\)$/) check[$2] = seconds(); mark[$2] = ", NOT PROVED"; next }
    /^rt: [A-Za-z0-9_]+ ran.* \([0-9]+ s\)$/ { ran = ran (ran == "" ? "" : ", ") $2 " " seconds() " s"; next }
    # edits that an earlier run tried have their lines too
    /^rt: must-fail [A-Za-z0-9_]+\/[^ :]+: / {
        name = $3
        sub(/\/.*/, "", name)
        label = $3
        sub(/^[^\/]*\//, "", label)
        sub(/:$/, "", label)
        sub(/\.edit$/, "", label)
        if ($0 !~ /: refused, as it must be/) not_refused = not_refused "\nNOT REFUSED, or a bad edit: " name "/" label
        add(name)
        edits[name]++
        if (/ s\)$/) {
            timed = 1
            all[name] += seconds()
            if (!(name in dearest) || seconds() > most[name]) { most[name] = seconds(); dearest[name] = label }
        }
        next
    }
    /^gate: [0-9]+ min [0-9]+ s$/ { elapsed = $2 " min " $4 " s" }

    END {
        if (!count) { print "costs: the log names no crate" > "/dev/stderr"; exit 1 }
        print "| crate | its check, s | edits |" (timed ? " all its edits, s | the dearest edit |" : "")
        print "|---|---:|---:|" (timed ? "---:|---|" : "")
        for (k = 1; k <= count; k++) {
            n = list[k]
            printf "| `%s` | %s | %d |", n, (n in check ? check[n] : "?") mark[n], edits[n]
            if (timed) printf " %d | %s |", all[n], (n in dearest ? dearest[n] ", " most[n] " s" : "")
            print ""
            checks += check[n]
            number += edits[n]
            seconds_of_edits += all[n]
        }
        printf "| all %d | %d | %d |", count, checks, number
        if (timed) printf " %d | %s |", seconds_of_edits, (elapsed == "" ? "" : "the gate from start to end: " elapsed)
        print ""
        if (!timed && elapsed != "") print "\nThe gate from start to end: " elapsed "."
        if (ran != "") print "\nRuns of the programs: " ran "."
        if (not_refused != "") print not_refused
    }' "$@"
