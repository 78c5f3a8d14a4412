#!/bin/sh
# stack.sh: no operation takes more stack than include/loader.h says, by the frames of the library's machine code and by what calls
# over limits, ladders, full and hostile stores were measured to take.
#
# Prints a line that begins with "ok", or what exceeds what; exit status 0 only if nothing does.
set -u
CDPATH='' cd -- "$(dirname -- "$0")/.." || exit 1
PATH="$PATH:${HOME:-/root}/.cargo/bin"
test=stack out=target/stack
. tests/lib/built.sh

# within WHAT: no figure of the file's lines, an operation and its four, exceeds the header's or is 0, and each operation has a line
within() {
    awk 'NR == FNR { for (i = 2; i <= 5; i++) { most[$1, i] = $i } names[$1] = 1; n++; next }
        !($1 in names) { print $1 " is not in the header"; bad = 1; next }
        { for (i = 2; i <= 5; i++) { if ($i == 0 || $i > most[$1, i]) { print $0 ": figure " i - 1 " is 0 or exceeds " most[$1, i]; bad = 1 } } }
        { seen[$1] = 1 }
        END { for (name in names) { if (!(name in seen)) { print name " was not measured"; bad = 1 } } exit bad || n != 8 }' \
        "$out/header" "$out/$1" || fail "the $1 exceed the header's figures"
}

need_library
LOADER_LIBRARY_DIR=$(CDPATH='' cd -- "$(dirname -- "$library")" && pwd) || fail "there is no $library"
export LOADER_LIBRARY_DIR

sed -nE 's/^ \* +(loader_[a-z_]+)(( +[0-9,]+){4})$/\1 \2/p' include/loader.h | tr -d , >"$out/header"
run bounds "$library" bench/recursion >"$out/bounds" || fail "the frames of $library cannot be read"
within bounds
run bench stack >"$out/table" || fail "the calls cannot be measured"
sed -nE 's/^\| `(loader_[a-z_]+)` \|(( [0-9]+ \|){4})$/\1 \2/p' "$out/table" | tr -d '|' >"$out/measured"
within measured

echo "ok stack: $(awk '{ print $2 " and " $3 " bytes at most, with larger limits " $4 " and " $5 }' "$out/bounds" | sort -n | tail -n 1), as the header says or less"
