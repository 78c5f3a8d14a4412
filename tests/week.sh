#!/bin/sh
# week.sh: the example week, through the static library from C and through the simulated card; the inventory of its store; the tables of
# examples/README.md.
#
# Prints a line that begins with "ok", or what differs; exit status 0 only if all is right.
set -u
CDPATH='' cd -- "$(dirname -- "$0")/.." || exit 1
test=week out=target/week
. tests/lib/built.sh

need_library
compile week examples/week.c examples/packages.c include/loader_text.c "$library"
"$out/week" >"$out/week.out" 2>"$out/week.err" || fail "week says:" "$out/week.err"
same examples/week.expected "$out/week.out"
"$out/week" card >"$out/week.card" 2>"$out/week.err" || fail "week card says:" "$out/week.err"
same examples/week.card "$out/week.card"

need_inventory
"$out/week" store >"$out/week.store" 2>"$out/week.err" || fail "week store says:" "$out/week.err"
"$inventory" <"$out/week.store" >"$out/week.inventory" || fail "the inventory failed"
same examples/week.inventory "$out/week.inventory"
for page in examples/README.md README.md; do
    grep -E '^    ([0-9A-F]{10,32} [0-9A-F]{10,32}|[0-9]+) [0-9]+ [0-9]+$' "$page" | sed 's/^    //' >"$out/page"
    same examples/week.inventory "$out/page"
done

need_card
"$card" <examples/week.card >"$out/card.out" || fail "the simulated card failed"
same examples/week.card.expected "$out/card.out"

# the table's line, answer and used are the card's
awk -F ' *[|] *' '$2 ~ /^[0-9]+$/ { gsub(/`/, "", $4); print $2 " " $4 ($5 == "" ? "" : " " $5) }' examples/README.md >"$out/table"
same examples/week.card.expected "$out/table"

# of other series and door readers, the loads and what is refused: answer, used, depth
awk -F ' *[|] *' '/^## Other series/ { on = 1 } on && $5 ~ /^[0-9]+$/ { sub(/, depth/, "", $4); split($4, said, " "); print said[1], $5, said[2] }' \
    examples/README.md >"$out/series"
sed -n '/^Next: /,$s/^  \(.*[^ ]\)  *\([0-9][0-9]*\)   used  *\([0-9]*\)   \(.*\)$/\1|\2|\3|\4/p' examples/week.expected |
    awk -F '|' '/^load/ || $2 != 0 { n = split($4, said, "deepest class "); print $2, $3, (n > 1 ? said[2] : "") }' >"$out/series.expected"
same "$out/series.expected" "$out/series"

echo "ok week: the story, the inventory and $(($(wc -l <examples/week.card))) lines of the simulated card are as stored"
