#!/bin/sh
# differential.sh [SEED COUNT]: the static library and the simulated card beside the independent
# reader, on the fixed cases and on COUNT generated call sequences.
#
# Prints the table of numbers answered and a line that begins with "ok", or what differs; exit
# status 0 only if nothing does and, from 20,000 sequences on, every number, depth and edge of limits
# was reached, FE decided, searches and imports met all that they can meet and wrong readings of
# versions, handlers, limits, kinds of domains, each opcode, searches and imports were told apart often
# enough.
# Builds what is missing or out of date; writes only under target/ and comparison/target/.
# LOADER_LIBRARY and CARD may name another archive of the operations, called libloader.a, and
# another simulated card, which are then tested and not built.
set -u
CDPATH='' cd -- "$(dirname -- "$0")/.." || exit 1
PATH="$PATH:${HOME:-/root}/.cargo/bin"

seed=${1:-1}
count=${2:-20000}
test=differential out=target/differential
. tests/lib/built.sh

need_library
LOADER_LIBRARY_DIR=$(CDPATH='' cd -- "$(dirname -- "$library")" && pwd) || fail "there is no $library"
export LOADER_LIBRARY_DIR
run differential "$seed" "$count" || fail "the library and the independent reader differ, or too little was reached"

need_card
files=$((count / 20))
run cards "$seed" "$files" "$card" || fail "the simulated card and the independent one differ"

echo "ok differential: seed $seed, $count call sequences and $files line files are answered alike"
