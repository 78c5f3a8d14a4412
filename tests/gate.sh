#!/bin/sh
# gate.sh: the gate itself, .ci/run, over small repositories with an rt and a cargo that only answer. A clean one passes, in which rt is
# called once, as plain `rt ci` over the files as they stand; an unlisted crate, a stray file, an axiom, crates that cannot be searched, a
# failing test, one that cannot be run, no tests, and each way in which rt, the edits, the library or cargo fail make it fail, by its last
# line and its exit status.
#
# Prints a line that begins with "ok", or what is wrong; exit status 0 only if all is right.
set -u
CDPATH='' cd -- "$(dirname -- "$0")/.." || exit 1
test=gate out=target/gate
. tests/lib/built.sh

gate=$PWD/.ci/run
room=$(mktemp -d) || exit 1
trap 'rm -rf "$room"' EXIT
cases=0

# says PROGRAM STATUS LINE..: a program that answers so
says() {
    program=$1 ends=$2
    shift 2
    { echo '#!/bin/sh' && printf "echo '%s'\n" "$@" && echo "exit $ends"; } >"$program"
    chmod +x "$program"
}

# rt_says STATUS LINE.., edits_say STATUS LINE..: what rt ci and the edits print, and their status
rt_says() { says "$room/bin/rt" "$@"; }
edits_say() { says "$room/repo/tests/must-fail" "$@"; }

# clean: a repository that passes, of a library, a static library, one edit, one test and one definition
clean() {
    rm -rf "$room/repo" "$room/bin"
    mkdir -p "$room/bin" "$room/repo/.ci" "$room/repo/crates/one/src" "$room/repo/crates/one/specs" \
        "$room/repo/crates/one/must-fail" "$room/repo/crates/one_c/src" "$room/repo/tests" "$room/repo/tools" "$room/repo/independent"
    cp "$gate" "$room/repo/.ci/run"
    printf '# NAME: the crates that it uses\none:\none_c staticlib: one\n' >"$room/repo/crates.txt"
    echo '// Nothing.' >"$room/repo/crates/one/src/lib.rt"
    echo '// Nothing.' >"$room/repo/crates/one_c/src/lib.rt"
    echo '-- No axiom is declared here.' >"$room/repo/crates/one/specs/Lib.antt"
    echo 'file: src/lib.rt' >"$room/repo/crates/one/must-fail/edit.edit"
    printf '#!/bin/sh\necho ok one\n' >"$room/repo/tests/one.sh"
    chmod +x "$room/repo/tests/one.sh"
    cat >"$room/bin/rt" <<'RT'
#!/bin/sh
echo "$PWD: rt $*" >>"$ROOM/calls"
[ -f crates/one/must-fail/edit.edit ] || exit 1
echo 'rt: one proved'
echo 'rt: must-fail one/edit.edit: refused, as it must be'
echo 'rt: ok; handles allowed: none; must-fail edits: 1 refused; every proof and must-fail edit was done in this run'
echo '3 passed, 0 failed'
RT
    cat >"$room/repo/tests/must-fail" <<'EDITS'
#!/bin/sh
[ "$1" = --log ] && grep -q '^rt: must-fail one/edit.edit: ' "$2" && echo '1 passed, 0 failed' && exit 0
exit 1
EDITS
    says "$room/repo/tools/library" 0 'built'
    printf '#!/bin/sh\nexit 0\n' >"$room/bin/cargo"
    chmod +x "$room/bin/rt" "$room/bin/cargo" "$room/repo/tests/must-fail"
}
export ROOM="$room"

# gives STATUS LAST WHAT: the gate over the repository ends so
gives() {
    : >"$room/calls"
    PATH="$room/bin:$PATH" "$room/repo/.ci/run" >"$room/said" 2>&1
    status=$?
    last=$(tail -n 1 "$room/said")
    if [ "$status" -ne "$1" ] || [ "$last" != "$2" ]; then
        fail "$3: status $status and '$last' in place of $1 and '$2'" "$room/said"
    fi
    cases=$((cases + 1))
}

# 3 of the gate's own, 3 of rt, 1 edit, 2 of cargo, 1 in tests/
clean
gives 0 "10 passed, 0 failed" "a clean repository"
[ "$(cat "$room/calls")" = "$room/repo: rt ci" ] || fail "rt is not called once, as rt ci at the top:" "$room/calls"
grep -q '^== where the time went' "$room/said" || fail "it does not say where the time went" "$room/said"

clean
mkdir -p "$room/repo/crates/two/src"
gives 1 "9 passed, 1 failed" "an unlisted crate"
clean
echo '// Nothing.' >"$room/repo/tests/stray.rt"
gives 1 "9 passed, 1 failed" "a stray file"
for line in 'axiom false : ⊥' '  axiom' 'pub axiom x : ℕ' 'x = Prim.Axiom.k'; do
    clean
    echo "$line" >>"$room/repo/crates/one/specs/Lib.antt"
    gives 1 "9 passed, 1 failed" "the axiom '$line'"
done
clean
rm -r "$room/repo/crates"
gives 1 "4 passed, 4 failed" "crates that cannot be searched"

clean
printf '#!/bin/sh\nexit 1\n' >"$room/repo/tests/one.sh"
gives 1 "9 passed, 1 failed" "a failing test"
clean
chmod -x "$room/repo/tests/one.sh"
gives 1 "9 passed, 1 failed" "a test that cannot be run"
clean
rm -r "$room/repo/tests"
gives 1 "8 passed, 2 failed" "no tests"

clean
printf '#!/bin/sh\n[ "$1" != test ]\n' >"$room/bin/cargo"
gives 1 "9 passed, 1 failed" "failing tests of the independent reader"
clean
rm "$room/bin/cargo"
printf '#!/bin/sh\nexit 127\n' >"$room/bin/cargo"
chmod +x "$room/bin/cargo"
gives 1 "8 passed, 2 failed" "a cargo that does not run"

edit='rt: must-fail one/edit.edit: refused, as it must be' ok='rt: ok; handles allowed: none; must-fail edits: 1 refused'
clean
rt_says 1 "$edit" '2 passed, 1 failed'
gives 1 "9 passed, 1 failed" "a crate that is not proved"
clean
rt_says 2 "$edit" "$ok; the rest" '3 passed, 0 failed'
gives 1 "10 passed, 1 failed" "an rt that fails after its last line"
clean
rt_says 0 "$edit" "$ok, 1 bad; the rest" '3 passed, 0 failed'
gives 1 "10 passed, 1 failed" "a bad edit"
clean
rt_says 0 "$edit" "$ok, 1 of them only by a limit, 12 bad; the rest" '3 passed, 0 failed'
gives 1 "10 passed, 1 failed" "bad edits"
clean
rt_says 0 "$edit" "$ok, 0 bad; the rest" '3 passed, 0 failed'
gives 0 "10 passed, 0 failed" "no bad edit"
clean
rt_says 0 "$edit" '3 passed, 0 failed'
gives 1 "10 passed, 1 failed" "an rt that does not say ok"
clean
rt_says 0 "$edit" "$ok; the rest" '3 passed, 0 failed (one and the crates below alone: not the gate)'
gives 1 "7 passed, 1 failed" "an rt that is asked for some crates alone"
clean
rt_says 0 'rt: no such thing'
gives 1 "6 passed, 2 failed" "an rt without a last line"
clean
rt_says 0 "$edit" "$ok; the rest" '0 passed, 0 failed'
gives 1 "7 passed, 1 failed" "an rt that proves nothing"

clean
edits_say 1 '0 passed, 1 failed'
gives 1 "9 passed, 1 failed" "an edit that is not refused"
clean
edits_say 0 '0 passed, 0 failed'
gives 1 "9 passed, 1 failed" "no edit"
clean
chmod -x "$room/repo/tests/must-fail"
gives 1 "9 passed, 1 failed" "edits that cannot be judged"
clean
says "$room/repo/tools/library" 1 'not built'
gives 1 "9 passed, 1 failed" "a library that is not built"

echo "ok gate: $cases small repositories pass or fail as they should"
