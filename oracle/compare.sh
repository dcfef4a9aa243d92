#!/usr/bin/env bash
# Compares the proved functions with the original, bit for bit:
#   MINIKALMAN_SRC=folder bash oracle/compare.sh [--lines N] [--seed N] [--jobs N]
# Builds the oracle (oracle/build.sh), proves and links the program `vectors`, has the oracle write lists
# of calls and the original's answers, and replays them; then replays lists with a planted fault each.
# Ends with the totals and the time. Exit status 0 where no number differs and every fault is found.
set -eu

here=$(cd "$(dirname "$0")" && pwd)
root=$(dirname "$here")
out=$root/target/compare
lines=400000 seed=1 jobs=2 piece=25000

die() { echo "oracle/compare.sh: $*" >&2; exit 2; }

while [ $# -gt 0 ]; do
  case $1 in
    --lines | --seed | --jobs)
      case ${2:-} in '' | *[!0-9]*) die "$1 takes a number" ;; esac
      case $1 in --lines) lines=$2 ;; --seed) seed=$2 ;; --jobs) jobs=$2 ;; esac
      shift 2
      ;;
    *) die "'$1' is no option; the place of the original's files goes into MINIKALMAN_SRC" ;;
  esac
done
[ "$(uname -m)" = x86_64 ] || die "this is $(uname -m), and the kit proves, and links programs, on x86_64 alone"
sh "$root/checks/kit.sh" || exit 2

bash "$here/build.sh"
"$root/target/oracle/oracle" --self-test | tail -n 1 | sed 's/^/self test of the oracle: /'
# It is proved, linked and run on the gate's list, and stays as target/bin/vectors.
said=$(bash "$root/checks/quiet.sh" "$root/target/vectors.log" vectors) || {
  printf '%s\n' "$said" | tail -n 20 >&2
  die 'the program vectors is not proved, or its run failed; target/vectors.log has all that was said'
}
printf '%s\n' "$said" | tail -n 2

# replay FILE OPTIONS OF THE ORACLE: what `vectors` says of that list, in FILE
replay() {
  local file=$1
  shift
  "$root/target/oracle/oracle" "$@" | "$root/target/bin/vectors" >"$file.part"
  mv "$file.part" "$file"
}

# The counts over all files given: calls, numbers, differences, bad lines, and how many files.
counts() {
  awk '/ calls, / { c += $1; n += $3; d += $6; f++ } / bad lines$/ { b += $1 } END { print c + 0, n + 0, d + 0, b + 0, f + 0 }' "$@" /dev/null
}

rm -rf "$out"
mkdir -p "$out"
began=$SECONDS
pieces=$(((lines + piece - 1) / piece))
echo "replaying $lines calls, $jobs at a time, in $pieces lists of up to $piece"
left=$lines
for ((i = 0; i < pieces; i++)); do
  n=$((left < piece ? left : piece))
  left=$((left - n))
  while [ "$(jobs -rp | wc -l)" -ge "$jobs" ]; do wait -n || die 'a list could not be replayed'; done
  replay "$out/$i" --seed $((seed + i)) --lines $n &
  read -r _ numbers differ bad done < <(find "$out" -type f ! -name '*.part' -exec cat {} + 2>/dev/null | counts -)
  echo "  $((SECONDS - began)) s: $done of $pieces lists, $numbers numbers, $differ differ, $bad bad lines"
done
while [ "$(jobs -rp | wc -l)" -gt 0 ]; do wait -n || die 'a list could not be replayed'; done
seconds=$((SECONDS - began))
[ "$(find "$out" -type f | wc -l)" = "$pieces" ] || die 'a list could not be replayed'
read -r calls numbers differ bad _ < <(cat "$out"/* | counts -)
cat "$out"/* | grep '^line' | head -n 10 || true

echo 'planted faults, each in the fixed list of some 3,250 calls and in one of 20,000:'
missed=0
for fault in $("$root/target/oracle/oracle" --faults); do
  replay "$out/small" --small --fault "$fault"
  replay "$out/long" --lines 20000 --fault "$fault"
  read -r _ _ small _ _ < <(counts "$out/small")
  read -r _ _ long _ _ < <(counts "$out/long")
  echo "  $fault: $small and $long numbers differ"
  if [ "$small" = 0 ] || [ "$long" = 0 ]; then missed=$((missed + 1)); fi
done

echo "$calls calls, $numbers numbers compared, $differ differ, $bad bad lines, $seconds s; $missed planted faults missed"
[ "$differ" = 0 ] && [ "$bad" = 0 ] && [ "$missed" = 0 ] && [ "$calls" = "$lines" ]
