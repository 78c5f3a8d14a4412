#!/bin/sh
# tears.sh: what a call leaves when it is cut off at any byte that it writes, in a store of each version, with domains of each kind,
# as include/loader.h says under "Power loss".
#
# Prints the counts and a line that begins with "ok", or what does not hold; exit status 0 only if all does.
set -u
CDPATH='' cd -- "$(dirname -- "$0")/.." || exit 1
test=tears out=target/tears
. tests/lib/built.sh

need_library
compile tears tests/tears.c "$library"
# the week, then domains and packages of which one becomes another byte by byte
{
    cat examples/week.card
    cat tests/tears.card
} >"$out/lines"
"$out/tears" "$out/lines" || fail "the header says otherwise"
echo "ok tears: every cut of $(wc -l <"$out/lines") lines is as the header says"
