#!/bin/sh
# card.sh: the simulated card on each input of tests/card, byte for byte; by pipes that are slow, that do not wait and that are
# interrupted; and on outputs and inputs that fail, where it stops and says so on standard error.
#
# Prints a line that begins with "ok", or what differs; exit status 0 only if all is right.
set -u
CDPATH='' cd -- "$(dirname -- "$0")/.." || exit 1
test=card out=target/card
. tests/lib/built.sh

need_card
inputs=0
for input in tests/card/*.txt examples/week.card; do
    [ -f "$input" ] || fail "there are no inputs in tests/card"
    expected=${input%.txt}.expected
    "$card" <"$input" >"$out/written" 2>"$out/said" || fail "$input: the card failed"
    same "$expected" "$out/written"
    [ ! -s "$out/said" ] || fail "$input: the card says:" "$out/said"
    inputs=$((inputs + 1))
done
[ "$inputs" -ge 10 ] || fail "inputs are missing: $inputs are there"
same examples/week.card crates/card/stdin
same examples/week.card.expected crates/card/stdout

# slowly: byte by byte, with pauses; a line is answered before the next one comes
mkfifo "$out/in.$$" "$out/back.$$" || fail "no pipe can be made"
trap 'rm -f "$out/in.$$" "$out/back.$$"' EXIT
timeout 60 "$card" <"$out/in.$$" >"$out/back.$$" &
running=$!
exec 3>"$out/in.$$" 4<"$out/back.$$"
: >"$out/written"
while IFS= read -r line; do
    printf '%s' "${line%?}" >&3
    sleep 0.02
    printf '%s\n' "${line#"${line%?}"}" >&3
    IFS= read -r answered <&4 || fail "no answer before the next line"
    printf '%s\n' "$answered" >>"$out/written"
done <tests/card/sample.txt
exec 3>&- 4<&-
wait "$running" || fail "the card failed on slow pipes"
same tests/card/sample.expected "$out/written"

# by a pipe, and by streams that do not wait, where the reader and the writer are slower
gcc -O2 -Wall -Wextra -Werror tests/nonblocking.c -o "$out/nonblocking" || fail "nonblocking.c does not compile"
cat tests/card/forms.txt | "$card" >"$out/written" || fail "the card failed by a pipe"
same tests/card/forms.expected "$out/written"
{
    head -c 20 tests/card/many.txt
    sleep 0.2
    tail -c +21 tests/card/many.txt
} | timeout 60 "$out/nonblocking" "$card" | {
    sleep 0.4
    cat
} >"$out/written" 2>"$out/said"
same tests/card/many.expected "$out/written"

# every read and write interrupted, not ready or short, by turns
gcc -O2 -Wall -Wextra -Werror -shared -fPIC tests/streams.c -o "$out/streams.so" || fail "streams.c does not compile"
for input in forms many refusals; do
    LD_PRELOAD="$out/streams.so" timeout 60 "$card" <"tests/card/$input.txt" >"$out/written" 2>"$out/said" || fail "$input: the card failed"
    same "tests/card/$input.expected" "$out/written"
    [ ! -s "$out/said" ] || fail "$input: the card says:" "$out/said"
done

# stops WHAT SAID: the card stopped, and said just this on standard error
stops() {
    echo "card: $2" | cmp -s - "$out/said" || fail "$1: the card should say: card: $2; it says:" "$out/said"
}

"$card" <examples/week.card >/dev/full 2>"$out/said"
stops "a full device" "standard output cannot be written"
"$card" <examples/week.card >&- 2>"$out/said"
stops "a closed output" "standard output cannot be written"
# the pipe's one reader is gone before the card starts
exec 4<>"$out/back.$$" 5>"$out/back.$$" 4>&-
(
    trap '' PIPE
    "$card" <tests/card/many.txt >&5 2>"$out/said"
)
exec 5>&-
stops "a pipe that nobody reads" "standard output cannot be written"
STREAMS=full LD_PRELOAD="$out/streams.so" timeout 60 "$card" <tests/card/many.txt >"$out/written" 2>"$out/said"
stops "a device that becomes full" "standard output cannot be written"
head -c "$(wc -c <"$out/written")" tests/card/many.expected | cmp -s - "$out/written" || fail "what was written before is another"
[ -s "$out/written" ] || fail "nothing was written before the device became full"
"$card" <&- >"$out/written" 2>"$out/said"
stops "a closed input" "standard input cannot be read"
"$card" <tests >"$out/written" 2>"$out/said"
stops "a folder as input" "standard input cannot be read"
[ ! -s "$out/written" ] || fail "it answers an input that cannot be read"

echo "ok card: $inputs inputs; slow, interrupted and non-blocking streams; six that fail"
