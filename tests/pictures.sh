#!/bin/sh
# pictures.sh: the drawings in docs/ are those that docs/pictures/draw makes of the example week and of crates.txt; each has
# what it must show.
#
# Prints a line that begins with "ok", or what is wrong; exit status 0 only if all is right.
set -u
CDPATH='' cd -- "$(dirname -- "$0")/.." || exit 1
test=pictures out=target/pictures
. tests/lib/built.sh

docs/pictures/draw "$out" 2>"$out/said" || fail "they cannot be drawn" "$out/said"
for picture in week crates; do
    cmp -s "docs/$picture.svg" "$out/$picture.svg" || fail "docs/$picture.svg is not what docs/pictures/draw makes: run it"
done
# shown PICTURE TEXT..: each stands in the drawing as a text
shown() {
    picture=$1
    shift
    for text in "$@"; do
        grep -q ">$text</text>" "docs/$picture.svg" || fail "docs/$picture.svg does not show $text"
    done
}
shown week canteen directory pharmacy meals statements diet cabinet requests treats price order statement book forward treat "version 2"
# shellcheck disable=SC2046
shown crates $(sed -n 's/^\([a-z][a-z0-9_]*\)[^#:]*:.*/\1/p' crates.txt)
[ "$(grep -c 'class="line red"' docs/week.svg)" -ge 2 ] || fail "docs/week.svg does not show the refused chain"

echo "ok pictures: week and crates are as drawn"
