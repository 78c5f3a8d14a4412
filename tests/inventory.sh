#!/bin/sh
# inventory.sh [SEED COUNT]: the printed inventory on the third reader's stores, byte for byte; by pipes that are slow, that do
# not wait and that are interrupted; on inputs that are too long; on outputs and inputs that fail, where it stops and says so on
# standard error; and beside the independent reader, on fixed stores and on COUNT generated ones.
#
# Prints what was reached and a line that begins with "ok", or what differs; exit status 0 only if all is right.
set -u
CDPATH='' cd -- "$(dirname -- "$0")/.." || exit 1
PATH="$PATH:${HOME:-/root}/.cargo/bin"

seed=${1:-1}
count=${2:-3000}
test=inventory out=target/inventory
. tests/lib/built.sh

need_inventory
need_library
LOADER_LIBRARY_DIR=$(CDPATH='' cd -- "$(dirname -- "$library")" && pwd) || fail "there is no $library"
export LOADER_LIBRARY_DIR
compile make_stores tests/stores.c
gcc -O2 -Wall -Wextra -Werror tests/nonblocking.c -o "$out/nonblocking" || fail "nonblocking.c does not compile"
gcc -O2 -Wall -Wextra -Werror -shared -fPIC tests/streams.c -o "$out/streams.so" || fail "streams.c does not compile"
page=$out/written said=$out/said

# silent WHAT: nothing was said on standard error
silent() {
    [ ! -s "$said" ] || fail "$1: the inventory says:" "$said"
}

# prints EXPECTED WHAT: the page has these bytes, and nothing was said
prints() {
    cmp -s "$1" "$page" || diff -u "$1" "$page" | head -n 20
    cmp -s "$1" "$page" || fail "$2: the page differs from $1"
    silent "$2"
}

# the third reader's stores, and their pages with an empty line after each
vectors=tests/vectors/08-request-1
rm -rf "$out/stores"
mkdir -p "$out/stores" || exit 1
gzip -dc "$vectors/inventory.stores.gz" | "$out/make_stores" each "$out/stores" || fail "$vectors/inventory.stores.gz cannot be read"
gzip -dc "$vectors/inventory.answers.gz" >"$out/answers" || fail "$vectors/inventory.answers.gz cannot be read"
number=0
: >"$page"
while [ -f "$out/stores/$((number + 1))" ]; do
    number=$((number + 1))
    "$inventory" <"$out/stores/$number" >>"$page" 2>"$said" || fail "store $number: the inventory failed"
    echo >>"$page"
    silent "store $number"
done
[ "$number" -ge 100 ] || fail "stores are missing: $number are there"
prints "$out/answers" "the third reader's stores"

# the fullest store, whose page is longer than a pipe holds
"$out/make_stores" full "$out/full" "$out/full.page" || fail "no store can be made"
"$inventory" <"$out/full" >"$page" 2>"$said" || fail "the inventory failed on the fullest store"
prints "$out/full.page" "the fullest store"

# by a pipe, slowly, and by streams that do not wait, where the reader and the writer are slower
"$inventory" <"$out/full" 2>"$said" | cat >"$page"
prints "$out/full.page" "a pipe"
# slowly: the store in parts, with pauses
slowly() {
    head -c 3 "$1"
    sleep 0.1
    tail -c +4 "$1" | head -c 30000
    sleep 0.1
    tail -c +30004 "$1"
    sleep 0.1
}
slowly "$out/full" | timeout 60 "$inventory" >"$page" 2>"$said"
prints "$out/full.page" "a slow pipe"
slowly "$out/full" | timeout 60 "$out/nonblocking" "$inventory" 2>"$said" | {
    sleep 0.6
    cat
} >"$page"
prints "$out/full.page" "streams that do not wait"

# every read and write interrupted, not ready or short, by turns
for store in 1 2 3 4 5 full; do
    case $store in full) input=$out/full ;; *) input=$out/stores/$store ;; esac
    "$inventory" <"$input" >"$out/expected"
    LD_PRELOAD="$out/streams.so" timeout 60 "$inventory" <"$input" >"$page" 2>"$said" || fail "store $store: the inventory failed"
    prints "$out/expected" "interrupted streams"
done

# inputs of no byte and of too many: the number alone; it need not read all
echo 1 >"$out/one"
"$inventory" </dev/null >"$page" 2>"$said"
prints "$out/one" "no input"
for more in 1 2 65536 5000000; do
    { cat "$out/full" && head -c "$more" /dev/zero; } 2>"$out/writer" | timeout 60 "$inventory" >"$page" 2>"$said"
    prints "$out/one" "$more bytes too many"
done
{
    cat "$out/full"
    sleep 0.2
    echo
} | timeout 60 "$inventory" >"$page" 2>"$said"
prints "$out/one" "one byte too many, late"

# stops WHAT SAID: it stopped, and said just this on standard error
stops() {
    echo "inventory: $2" | cmp -s - "$said" || fail "$1: the inventory should say: inventory: $2; it says:" "$said"
}

unwritten="standard output cannot be written"
mkfifo "$out/back.$$" || fail "no pipe can be made"
trap 'rm -f "$out/back.$$"' EXIT
for input in "$out/full" "$out/stores/1" /dev/null; do
    "$inventory" <"$input" >/dev/full 2>"$said"
    stops "a full device, $input" "$unwritten"
    "$inventory" <"$input" >&- 2>"$said"
    stops "a closed output, $input" "$unwritten"
    # the pipe's one reader is gone before the program starts
    exec 4<>"$out/back.$$" 5>"$out/back.$$" 4>&-
    (
        trap '' PIPE
        "$inventory" <"$input" >&5 2>"$said"
    )
    exec 5>&-
    stops "a pipe that nobody reads, $input" "$unwritten"
done

# partly WHAT: what was written before is the page's beginning
partly() {
    stops "$1" "$unwritten"
    [ -s "$page" ] || fail "$1: nothing was written before"
    head -c "$(wc -c <"$page")" "$out/full.page" | cmp -s - "$page" || fail "$1: what was written before is another"
}
STREAMS=full STREAMS_WRITES=4 LD_PRELOAD="$out/streams.so" timeout 60 "$inventory" <"$out/full" >"$page" 2>"$said"
partly "a device that becomes full"
(
    trap '' XFSZ
    ulimit -f 8
    "$inventory" <"$out/full" >"$page" 2>"$said"
)
partly "a file that may not grow further"
[ "$(wc -c <"$page")" -eq 4096 ] || fail "a file that may not grow further has $(wc -c <"$page") bytes, not 4096"

unread="standard input cannot be read"
"$inventory" <&- >"$page" 2>"$said"
stops "a closed input" "$unread"
[ ! -s "$page" ] || fail "it prints for an input that is closed"
"$inventory" <tests >"$page" 2>"$said"
stops "a folder as input" "$unread"
[ ! -s "$page" ] || fail "it prints for an input that cannot be read"

run inventories "$seed" "$count" "$inventory" || fail "the inventory and the independent reader differ, or too little was reached"

echo "ok inventory: $number stores of the third reader; slow, interrupted and non-blocking streams; seven that fail; seed $seed, $count generated stores"
