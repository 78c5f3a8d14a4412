#!/bin/sh
# edits.sh: tests/must-fail itself, over a small repository of one crate with an rt that only answers. An edit passes only where rt refuses
# it at the place that it names; each other way in which it can end fails, and so does every run where there is no edit.
#
# Prints a line that begins with "ok", or what is wrong; exit status 0 only if all is right.
set -u
CDPATH='' cd -- "$(dirname -- "$0")/.." || exit 1
test=edits out=target/edits
. tests/lib/built.sh

tried=$PWD/tests/must-fail
room=$(mktemp -d) || exit 1
trap 'rm -rf "$room"' EXIT
cases=0

mkdir -p "$room/bin" "$room/repo/tests" "$room/repo/crates/one/src" "$room/repo/crates/one/must-fail"
cp "$tried" "$room/repo/tests/must-fail"
echo 'one staticlib: two' >"$room/repo/crates.txt"
printf 'pub fn f(n: u8) -> u8 {\n    n\n}\n\npub(crate) fn g() {\n    f(1);\n}\n' >"$room/repo/crates/one/src/lib.rt"
# says what the file said has, with the status in the file status
cat >"$room/bin/rt" <<'RT'
#!/bin/sh
[ "$*" = 'must-fail' ] || [ "$*" = 'must-fail one' ] || exit 2
cat "$SAID"
RT
chmod +x "$room/bin/rt"
export SAID="$room/rt-says"

# ends STATUS LAST WHAT WORDS..: tests/must-fail with these words ends so
ends() {
    status_wanted=$1 last_wanted=$2 what=$3
    shift 3
    PATH="$room/bin:$PATH" "$room/repo/tests/must-fail" "$@" >"$room/said" 2>&1
    status=$?
    last=$(tail -n 1 "$room/said")
    if [ "$status" -ne "$status_wanted" ] || [ "$last" != "$last_wanted" ]; then
        fail "$what: status $status and '$last' in place of $status_wanted and '$last_wanted'" "$room/said"
    fi
    cases=$((cases + 1))
}

# gives STATUS LAST WHAT PLACE SAID: an edit of that place, tried by must-fail and read from a log, where rt says that of it
gives() {
    printf '# Why.\nfile: src/lib.rt\nold: n\nnew: 0\n%s\n' "${4:+refused: $4}" >"$room/repo/crates/one/must-fail/edit.edit"
    printf 'rt: another line\n%s\nrt: must-fail two/edit.edit: NOT REFUSED: another crate\n' "$5" >"$SAID"
    ends "$1" "$2" "$3"
    ends "$1" "$2" "$3, by its crate" one
    ends "$1" "$2" "$3, by a log" --log "$SAID"
}

passes() { gives 0 "1 passed, 0 failed" "$@"; }
fails() { gives 1 "0 passed, 1 failed" "$@"; }

label='rt: must-fail one/edit.edit'
yes="$label: refused, as it must be"
error="./proofs/f/Answers.antt:7:1: error: \`returns\`: the two types differ"
note="note: src/lib.rt:6:5: it is not proved that the sum fits its type (\`overflow-add\`); the facts known there"
limit="(only by a limit of the prover, which gave no verdict: choose another)"

passes "refused where it says" 'proofs/f/Answers.antt returns' "$yes: $error"
passes "refused at a goal without an answer" 'src/lib.rt g overflow-add' "$yes: $note"
passes "a name that rt cut short" 'proofs/f/Answers.antt returns-2' "$yes: ./proofs/f/Answers.antt:7:1: error: \`retur"
passes "stopped by a limit" 'proofs/f/Answers.antt returns, by a limit' "$yes $limit: $error"
fails "stopped by a limit, and the edit does not say so" 'proofs/f/Answers.antt returns' "$yes $limit: $error"
fails "not stopped by a limit, but the edit says so" 'proofs/f/Answers.antt returns, by a limit' "$yes: $error"
fails "refused at another place of the file" 'proofs/f/Answers.antt loop-again' "$yes: $error"
fails "refused in another file" 'proofs/h/Answers.antt returns' "$yes: $error"
fails "refused in another function" 'src/lib.rt f overflow-add' "$yes: $note"
fails "another name that rt cut short" 'proofs/f/Answers.antt loop-again' "$yes: ./proofs/f/Answers.antt:7:1: error: \`retur"
fails "refused for a name that is gone" 'proofs/f/Answers.antt returns' \
    "$yes (only because a proof file names what the edit took away, so this says little of the contract): $error"
fails "refused at no place" 'proofs/f/Answers.antt returns' "$yes"
fails "refused without a name" 'proofs/f/Answers.antt returns' "$yes: ./proofs/f/Answers.antt:7:1: error: the two types differ"
fails "no place" '' "$yes: $error"
fails "not refused" 'proofs/f/Answers.antt returns' "$label: NOT REFUSED: the crate is still proved with this edit"
fails "a bad edit" 'proofs/f/Answers.antt returns' "$label: BAD EDIT: an 'old:' text is in src/lib.rt 2 times, and not once"
fails "not tried" 'proofs/f/Answers.antt returns' "$label: NOT TRIED: its check was killed"
fails "nothing said" 'proofs/f/Answers.antt returns' 'rt: ok'
fails "another edit" 'proofs/f/Answers.antt returns' "rt: must-fail one/edit.edit.edit: refused, as it must be: $error"

rm "$room/repo/crates/one/must-fail/edit.edit"
ends 1 "0 passed, 1 failed" "no edit"
ends 1 "0 passed, 1 failed" "no edit, by a log" --log "$SAID"
ends 2 "there is no crate two" "no such crate" two

echo "ok edits: $cases runs pass or fail as they should"
