#!/bin/sh
# vectors.sh: calls with the answers of a third reader, a folder of tests/vectors for each landing, through the
# static library.
#
# Prints a line that begins with "ok", or what differs; exit status 0 only if all is right.
set -u
CDPATH='' cd -- "$(dirname -- "$0")/.." || exit 1
test=vectors out=target/vectors
. tests/lib/built.sh

need_library
compile vectors tests/vectors.c "$library"
files=0
for calls in tests/vectors/*/*.calls.gz; do
    [ -f "$calls" ] || fail "there are no calls in tests/vectors"
    name=${calls#tests/vectors/}
    name=${name%.calls.gz}
    mkdir -p "$out/${name%/*}" || exit 1
    gzip -dc "$calls" >"$out/$name.calls" || fail "$calls cannot be read"
    gzip -dc "${calls%.calls.gz}.answers.gz" >"$out/$name.answers" || fail "$name has no answers"
    "$out/vectors" "$out/$name.calls" "$out/$name.answers" >"$out/$name.said" 2>"$out/$name.err" || fail "$calls:" "$out/$name.err"
    echo "$name: $(cat "$out/$name.said")"
    files=$((files + 1))
done
echo "ok vectors: $files files of calls are answered as the third reader answers them"
