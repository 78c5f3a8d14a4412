#!/bin/sh
# header.sh: the C headers compile by themselves as C99, C11, C++98 and C++17, with other compilers at hand too, and where int has
# 16 bits; each number from 0 to 21, 24, 26 and 30 has one constant; the limits that a comment tells are those of the constants; both
# creations have the same numbers; the static library exports the eight operations and needs memset alone.
#
# Prints a line that begins with "ok", or what is wrong; exit status 0 only if all is right.
set -u
CDPATH='' cd -- "$(dirname -- "$0")/.." || exit 1
test=header out=target/header
. tests/lib/built.sh

# included twice, to try its guards too; each constant must fit where it is compared
cat >"$out/alone.c" <<'C'
#include "loader_text.h"
#include "loader.h"
#include "loader_text.h"
#if LOADER_STORE_MOST != 65535u || LOADER_STORE_LEAST != 64u || LOADER_VERSION < 256u
#error "a limit or the version is another"
#endif
extern unsigned used_of(const uint8_t *store);
unsigned used_of(const uint8_t *store)
{
    return LOADER_USED(store);
}
C

# alone NAME COMPILER WORDS..: the file by itself
alone() {
    name=$1
    shift
    "$@" -Wall -Wextra -Werror -pedantic -Iinclude -c "$out/alone.c" -o "$out/$name.o" >"$out/$name.log" 2>&1 ||
        fail "the headers do not compile: $name" "$out/$name.log"
    done=${done:+$done, }$name
}

done=
alone C99 gcc -std=c99
alone C11 gcc -std=c11
alone C++98 g++ -std=c++98 -x c++ -Wno-long-long
alone C++17 g++ -std=c++17 -x c++
alone text gcc -std=c99 -include include/loader_text.c
# without a compiler for a machine of 16-bit int: the limits stay within 65,535 and no enumerator passes 32,767
sed -n '/^enum /,/^};/s/.*= \([0-9][0-9]*\),\{0,1\}$/\1/p' include/loader.h | while read -r n; do
    [ "$n" -le 32767 ] || echo "$n"
done | grep . && fail "an enumerator does not fit an int of 16 bits"
sed -n 's/^#define LOADER_[A-Z_]* \([0-9][0-9]*\)\(u*\)$/\1 \2/p' include/loader.h | while read -r n u; do
    if [ "$u" != u ] || [ "$n" -gt 65535 ]; then echo "$n$u"; fi
done | grep . && fail "a limit is no unsigned number of 16 bits"
if command -v clang >/dev/null; then
    alone clang clang -std=c99
    if echo 'int x;' | clang --target=msp430 -x c -c - -o "$out/probe.o" 2>"$out/probe.log"; then
        alone "16-bit int" clang --target=msp430 -std=c99
        printf '#include "loader.h"\ntypedef char int_has_16_bits[sizeof(int) == 2 ? 1 : -1];\n' >"$out/sixteen.c"
        clang --target=msp430 -Iinclude -c "$out/sixteen.c" -o "$out/sixteen.o" || fail "int has not 16 bits there"
    fi
fi

sed -n '/^enum loader_number {/,/^};/s/^ *LOADER_[A-Z_]* = \([0-9]*\),\{0,1\}$/\1/p' include/loader.h >"$out/numbers"
{
    seq 0 21
    printf '%s\n' 24 26 30
} | cmp -s - "$out/numbers" || fail "the numbers are not 0 to 21, 24, 26 and 30, each once" "$out/numbers"
# each of them but 0 is asked by an operation, and no other is
sed -n '/^ \* Numbers: /,/^ \* Changes: /{/Changes/d; s/;.*//; p}' include/loader.h | grep -o '[0-9][0-9]*' | sort -nu >"$out/asked"
sed 1d "$out/numbers" | cmp -s - "$out/asked" || fail "the operations' lists have other numbers" "$out/asked"
# the second creation asks what the first asks
sed -n '/^ \* Creates a domain/,/^uint32_t/s/^ \* Numbers: //p' include/loader.h >"$out/creations"
[ "$(sort -u "$out/creations" | wc -l) $(wc -l <"$out/creations")" = "1 2" ] || fail "the two creations have other numbers" "$out/creations"
# constant NAME: its value
constant() { sed -n "s/^#define LOADER_$1 \([0-9]*\)u\$/\1/p" include/loader.h; }
# comments SED: the comments as one line of words, figures without commas
comments() { sed -n "$1" include/loader.h | sed 's,^ *\(/\*\|\*\) *, ,; s,\*/,,' | tr '\n' ' ' | sed 's/  */ /g; s/\([0-9]\),\([0-9]\)/\1\2/g'; }
ranges="depth 1 to $(constant DEPTH_MOST), parents 1 to $(constant PARENTS_MOST), code length 1 to $(constant CODE_MOST)"
comments '/^enum loader_number {/,/^};/p' | grep -qF "in its range: $ranges?" || fail "question 30 has other ranges than $ranges"
standard="$(constant DEPTH_STANDARD), $(constant PARENTS_STANDARD) and $(constant CODE_STANDARD)"
comments '1,/^ \*\/$/p' | grep -qF "means $standard." || fail "version 1 means other limits than $standard"
comments '/^ \* Makes the buffer/,/^uint32_t/p' | grep -qF "with the limits $standard." || fail "loader_fresh has other limits than $standard"

need_library
nm -g "$library" | awk 'NF == 2 && $1 == "U" { print "needs " $2 } NF == 3 { print "has " $3 }' | sort >"$out/symbols"
printf '%s\n' create create_without_int delete fresh fresh_limits load query remove | sed 's/^/has loader_/' >"$out/symbols.expected"
echo 'needs memset' >>"$out/symbols.expected"
same "$out/symbols.expected" "$out/symbols"

echo "ok header: $done; $(($(wc -l <"$out/numbers"))) numbers; the library needs memset alone"
