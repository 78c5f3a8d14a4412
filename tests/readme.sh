#!/bin/sh
# readme.sh: README.md as printed. Its C program compiles and prints what is said; the first command runs; files that it names
# are there; its table of numbers is that of include/loader_text.c and of the header.
#
# Prints a line that begins with "ok", or what is wrong; exit status 0 only if all is right.
set -u
CDPATH='' cd -- "$(dirname -- "$0")/.." || exit 1
test=readme out=target/readme
. tests/lib/built.sh

need_library

# the C block, by the words of the command line that follows it
sed -n '/^```c$/,/^```$/p' README.md | sed '1d;$d' >"$out/os.c"
[ -s "$out/os.c" ] || fail "there is no C block"
line=$(sed -n 's/^    gcc \(.*\)$/\1/p' README.md)
words=$(echo "$line" | sed "s,os\.c,$out/os.c,; s,target/staticlib/libloader\.a,$library,; s,-o os\$,-o $out/os,")
# shellcheck disable=SC2086
gcc -Wall -Wextra -Werror -pedantic $words >"$out/gcc.log" 2>&1 || fail "the C block does not compile" "$out/gcc.log"
"$out/os" >"$out/os.out" || fail "the C program failed"
sed -n '/^It prints$/,/^\[/s/^    //p' README.md >"$out/os.expected"
[ -s "$out/os.expected" ] || fail "README.md does not say what the program prints"
same "$out/os.expected" "$out/os.out"

# the table of numbers: NUMBER NAME TEXT; of a number without a name it is said that it is none
cat >"$out/names.c" <<'C'
#include <stdio.h>
#include <string.h>
#include "loader_text.h"
int main(void)
{
    uint32_t past_the_last = 0;
    for (uint32_t i = 0; i < 256; i++) {
        if (loader_number_name(i)[0] != '\0') {
            printf("%u %s %s\n", (unsigned)i, loader_number_name(i), loader_number_text(i));
            past_the_last = i + 1;
        } else if (strcmp(loader_number_text(i), "no number of the loader") != 0) {
            return 1;
        }
    }
    return past_the_last == LOADER_NUMBERS ? 0 : 1;
}
C
compile names "$out/names.c" include/loader_text.c
"$out/names" >"$out/names.text" ||
    fail "a number without a name has a text of its own, or LOADER_NUMBERS is not one more than the last number"
sed -n 's/^| *\([0-9][0-9]*\) *| *`\(LOADER_[A-Z_]*\)`: *\([^|]*[^| ]\) *|.*/\1 \2 \3/p' README.md >"$out/names.readme"
same "$out/names.readme" "$out/names.text"
# and the header's own: NUMBER NAME
sed -n '/^enum loader_number {/,/^};/s/^ *\(LOADER_[A-Z_]*\) = \([0-9]*\),\{0,1\}$/\2 \1/p' include/loader.h >"$out/names.header"
cut -d' ' -f1,2 "$out/names.text" >"$out/names.short"
same "$out/names.header" "$out/names.short"
# the questions of the header's comments, each on one line, are those of the table
sed -n '/^enum loader_number {/,/^};/p' include/loader.h | tr '\n' ' ' | grep -o '/\*[^*]*\*/' |
    sed 's,^/\* *,,; s, *\*/$,,; s,  *, ,g' >"$out/questions.header"
sed -n 's/^| *[0-9][0-9]* *| *`LOADER_[^|]*| *\([^|]*[^| ]\) *|.*/\1/p' README.md | sed 's/–/-/g' >"$out/questions.readme"
same "$out/questions.readme" "$out/questions.header"
! grep -qi 'ascending' README.md || fail "README.md says ascending: the order is that of each operation's list"

# files named by links
grep -o ']([^)]*)' README.md docs/*.md examples/README.md | sed 's/:\](/ /; s/)$//' | while read -r from to; do
    case $to in http*) continue ;; esac
    [ -e "$(dirname "$from")/${to%%#*}" ] || echo "$from names $to"
done >"$out/missing"
[ ! -s "$out/missing" ] || fail "files that are not there:" "$out/missing"

# the first command
first=$(sed -n '/^## See it run$/,/^## /s/^    //p' README.md | head -n 1)
sh -c "$first" >"$out/first.out" 2>&1 || fail "the first command, $first, failed" "$out/first.out"
[ "$(grep -c '^ *[0-9][0-9]* ' "$out/first.out")" -eq "$(($(wc -l <examples/week.card)))" ] ||
    fail "the first command does not show the week" "$out/first.out"

echo "ok readme: the C program, the first command, $(($(wc -l <"$out/names.text"))) numbers and the links are as printed"
