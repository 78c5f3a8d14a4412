# For the scripts in tests/: the static library, the simulated card and the inventory, built where missing
# or out of date.
#
# A script sets `test` to its name and `out` to its folder below target/, and sources this file from the
# top of the repository. LOADER_LIBRARY, CARD and INVENTORY may name another archive of the eight
# operations, another simulated card and another inventory, which are then tested and not built.

# fail WHAT [FILE]: says what went wrong, with what was written about it.
fail() {
    echo "$test: $1"
    [ $# -lt 2 ] || cat "$2"
    exit 1
}

# same EXPECTED ACTUAL: both files have the same bytes.
same() {
    cmp -s "$1" "$2" && return
    diff -u "$1" "$2"
    fail "$2 differs from $1"
}

# current FILE: it is there, and nothing that it is built from is newer.
current() {
    [ -f "$1" ] && [ -z "$(find crates.txt crates/*/src crates/*/specs crates/*/proofs -newer "$1" | head -n 1)" ]
}

# need_program NAME: the program of crates/NAME, which `rt ci` leaves there too; else proved and built, and run once on no input
need_program() {
    if ! current "crates/$1/out/$1"; then
        (cd "crates/$1" && rt run) </dev/null >"$out/$1.log" 2>&1 || fail "rt run failed in crates/$1" "$out/$1.log"
    fi
}

# need_library: sets `library` to an archive that is up to date.
need_library() {
    library=${LOADER_LIBRARY:-target/staticlib/libloader.a}
    if [ -z "${LOADER_LIBRARY:-}" ] && ! current "$library"; then
        tools/library >"$out/library.log" 2>&1 || fail "tools/library failed" "$out/library.log"
    fi
    [ -f "$library" ] || fail "there is no $library"
}

# need_card: sets `card` to a simulated card that is up to date.
need_card() {
    card=${CARD:-crates/card/out/card}
    [ -n "${CARD:-}" ] || need_program card
    [ -x "$card" ] || fail "there is no program $card"
}

# need_inventory: sets `inventory` to a program that prints inventories and is up to date.
need_inventory() {
    inventory=${INVENTORY:-crates/inventory/out/inventory}
    [ -n "${INVENTORY:-}" ] || need_program inventory
    [ -x "$inventory" ] || fail "there is no program $inventory"
}

# run PROGRAM ARGUMENT..: a program of comparison/
run() {
    program=$1
    shift
    cargo run --offline --release -q --manifest-path comparison/Cargo.toml --bin "$program" -- "$@"
}

# compile PROGRAM WORDS..: a C99 program of $out
compile() {
    program=$1
    shift
    gcc -std=c99 -Wall -Wextra -Werror -pedantic -O2 -Iinclude "$@" -o "$out/$program" >"$out/$program.log" 2>&1 ||
        fail "$program does not compile" "$out/$program.log"
}

mkdir -p "$out" || exit 1
