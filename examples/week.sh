#!/bin/sh
# week.sh: the example week on the simulated card, in some seconds and without proof.
#
# `rt try` in crates/card runs the card on examples/week.card: interpreted, and compiled with checks. Both runs must write the same, the
# bytes of crates/card/stdout. These are printed here once, each line beside what examples/README.md says of it.
# Exit status 0 only if both runs wrote just that.
set -u
CDPATH='' cd -- "$(dirname -- "$0")/.." || exit 1

echo "rt try in crates/card: the simulated card on examples/week.card. Nothing is proved by this run."
room=$(mktemp -d) || exit 1
trap 'rm -rf "$room"' EXIT
(cd crates/card && rt try) <examples/week.card >"$room/written" 2>"$room/said" || {
    cat "$room/said"
    exit 1
}
cmp "$room/written" crates/card/stdout || exit 1
grep -q ' runners=2 ' "$room/said" || {
    cat "$room/said"
    exit 1
}
awk -F ' *[|] *' '
    FILENAME ~ /stdout$/ { split($0, said, " "); answer[said[1]] = said[2]; used[said[1]] = said[3]; next }
    $2 == "Line" { print "\nline answer used"; of_week = 1; next }
    of_week && $3 ~ /^[*][*]/ { gsub(/[*]/, "", $3); print "                 " $3; next }
    of_week && $2 ~ /^[0-9]+$/ { printf "%4d %6s %4s   %s\n", $2, answer[$2], used[$2], $3 }
' crates/card/stdout examples/README.md
echo
echo "Interpreted and compiled with checks, the card wrote these answers each time."
