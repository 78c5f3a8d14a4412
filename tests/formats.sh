#!/bin/sh
# formats.sh: the figures of docs/FORMATS.md on the static library. The dumps are contiguous, load, and are refused with bytes of
# their opening changed; every limit holds at its value and is refused one past it, in a store of version 1 and with the limits that
# one of version 2 chooses; these are taken at the edges of their ranges and refused one past them, given and stored; lengths,
# branches, calls and last instructions of all opcodes are those of the tables; the codes, calls and handlers are answered as said, and a
# store that holds a handler is sound where its load is accepted, and only there; a domain without int bars just the opcodes of the
# table, and a store that holds a code in such a domain is sound where its load is accepted, and only there.
#
# Prints a line that begins with "ok", or what is wrong; exit status 0 only if all is right.
set -u
CDPATH='' cd -- "$(dirname -- "$0")/.." || exit 1
test=formats out=target/formats
. tests/lib/built.sh

page=docs/FORMATS.md
need_library
compile formats tests/formats.c -Iexamples examples/packages.c "$library"

# the bytes of the n-th dump; each line begins where the one before ended
dump() {
    awk -v wanted="$1" '
        function number(text, n, i) { n = 0; for (i = 1; i <= length(text); i++) n = n * 16 + index("0123456789ABCDEF", substr(text, i, 1)) - 1; return n }
        /^```$/ { inside = !inside; if (inside) { dumps++; next_place = 0 } next }
        inside && dumps == wanted {
            split($0, part, /   */)
            if (number(part[1]) != next_place) { print "not at its place: " $0 > "/dev/stderr"; exit 1 }
            n = split(part[2], bytes, " ")
            for (i = 1; i <= n; i++) { printf "%s", bytes[i]; next_place++ }
        }' "$page"
}

# with DUMP PLACE BYTES: the dump with other bytes at a place, as the page counts it
with() { echo "$1" | sed "s/^\(.\{$((2 * 0x$2))\}\).\{${#3}\}/\1$3/"; }

# the rows of the table under a heading: cells between bars
rows() {
    awk -F ' *[|] *' -v head="$1" '
        $2 == head { inside = 1; next }
        inside && !/^[|]/ { inside = 0 }
        inside && $2 !~ /^-/ { print $2 "|" $3 "|" $4 "|" $5 }' "$page"
}

# limits NAME VALUE OTHERS: depth, parents and code, the named one being the value, the others those of a column (2 least, 3 most)
limits() {
    rows 'Chosen limit' | awk -F '|' -v name="$1" -v value="$2" -v others="$3" '
        { all = all (NR > 1 ? " " : "") ($1 == name ? value : $others) } END { print all }'
}

# each opcode of the lists on standard input
opcodes() {
    awk 'function number(h) { return 16 * (index("0123456789ABCDEF", substr(h, 1, 1)) - 1) + index("0123456789ABCDEF", substr(h, 2, 1)) - 1 }
        { gsub(/–/, "-"); n = split($0, part, /, */); for (i = 1; i <= n; i++) { split(part[i], ends, "-"); last = ends[2] == "" ? ends[1] : ends[2];
          for (o = number(ends[1]); o <= number(last); o++) printf "%02X\n", o } }'
}

# list WHAT: the opcodes whose second cell matches
list() { rows Opcodes | awk -F '|' -v what="$1" '$2 ~ what { print $1 }' | opcodes; }

# marked KIND VALUE WHAT: a line for each opcode that is an instruction of fixed length, VALUE where it is in the list, else 0
marked() {
    list "$3" >"$out/list"
    [ -s "$out/list" ] || fail "no opcodes: $3"
    list '^[1-5]$' | sort | while read -r opcode; do
        if grep -qx "$opcode" "$out/list"; then echo "$1 $2 $opcode"; else echo "$1 0 $opcode"; fi
    done
}

# called OPCODE CLASS NAME: a file of the page's classes and a method that makes this call
called() {
    rows Class | awk -F '|' -v opcode="$1" -v class="$2" -v name="$3" '
        {
            record = $2 == "interface" ? "01" : "00"
            n = $3 == "none" ? 0 : split($3, parents, ", ")
            record = record sprintf("%02X", n)
            for (i = 1; i <= n; i++) record = record sprintf("00%02X", parents[i])
            n = $4 == "none" ? 0 : split($4, methods, "; ")
            record = record sprintf("%02X", n)
            for (i = 1; i <= n; i++) {
                method = methods[i]
                allowed = sub(/ for nobody$/, "", method) ? "00" : "FF"
                bits = sub(/^static /, "", method) ? "E0" : sub(/ without code$/, "", method) || $2 == "interface" ? "80" : "C0"
                record = record bits sprintf("%04X", method) allowed (bits == "80" ? "" : "00017A")
            }
            classes = classes record
        }
        END {
            code = opcode == "8E" ? "8E000000007A" : opcode "00007A"
            caller = "000001E0000100" sprintf("%04X", length(code) / 2) code
            rest = "05C0C0C0C0C000000001" "00" sprintf("%02X%04X", class, name) sprintf("%02X", NR + 1) classes caller
            print "42504B0001" sprintf("%04X", length(rest) / 2 + 7) rest
        }'
}

{
    rows Limit | while IFS='|' read -r name least most number; do
        echo "limit 0 $least $name"
        echo "limit 0 $most $name"
        echo "limit $number $((most + 1)) $name"
        # a class cannot have a depth of 0, and no count is below 0
        if [ "$least" -gt 0 ] && [ "$name" != 'depth of a class' ]; then echo "limit $number $((least - 1)) $name"; fi
    done
    first=$(dump 1) || exit 1
    second=$(dump 2) || exit 1
    store=$(dump 3) || exit 1
    for package in "$first" "$second"; do
        echo "load 0 $package"
        echo "load 10 $(with "$package" 0000 FF)"
        for version in 0000 0003 0100 0102; do echo "load 10 $(with "$package" 0003 "$version")"; done
        echo "load 11 $(with "$package" 0005 FFFF)"
        echo "load 11 ${package}00"
    done
    # FE is an index, FD is none; FE is no count
    echo "load 11 $(with "$first" 0037 FD)"
    echo "load 11 $(with "$first" 0036 FE)"
    # version 1 has no handler count, version 2 has one
    echo "load 11 $(with "$second" 0003 0001)"
    echo "load 11 $(with "$first" 0003 0002)"
    echo "load 0 $(with "$(with "$first" 0003 0002)" 0005 0040)00"
    # a handler count that is not that of the handlers
    echo "load 11 $(with "$second" 0040 00)"
    echo "load 11 $(with "$second" 0040 02)"
    echo "load 11 $(with "$second" 0040 11)"
    # other offsets: the code has 6 bytes, and instructions start at 0, 3, 4 and 5
    echo "load 24 $(with "$second" 0041 0001)"
    echo "load 24 $(with "$second" 0041 0003)"
    echo "load 24 $(with "$second" 0043 0002)"
    echo "load 0 $(with "$second" 0043 0006)"
    echo "load 24 $(with "$second" 0043 0007)"
    echo "load 0 $(with "$second" 0045 0005)"
    echo "load 24 $(with "$second" 0045 0006)"
    length=$((${#store} / 2))
    echo "store 0 $length $store"
    echo "store 0 300 $store"
    for place in 0000 0001 0002 0003 0004 0005 0006 0007; do echo "store 2 $length $(with "$store" "$place" EE)"; done
    # kinds of the domain's entry, and both kinds with one AID
    echo "store 0 $length $(with "$store" 0007 03)"
    for kind in 00 02 04 FF; do echo "store 2 $length $(with "$store" 0007 "$kind")"; done
    for kinds in 0101 0103 0301 0303; do
        before=$(with "$(with "$store" 0007 "${kinds%??}")" 0005 0032 | cut -c1-84)
        behind=$(echo "$store" | cut -c15-30 | sed "s/^../${kinds#??}/")
        echo "store 2 300 $before$behind"
        echo "store 0 300 $before${behind%??}D2"
    done
    # its package has no codes, so that version 2 is laid out alike
    echo "store 0 $length $(with "$store" 001B 0002)"
    echo "store 2 $length $(with "$store" 001B 0003)"
    limited=$(dump 4) || exit 1
    echo "store 0 $length $limited"
    echo "store 0 300 $limited"
    for place in 0000 0001 0002 0003 0004 0005 0006 0007 0008 0009 000B; do echo "store 2 $length $(with "$limited" "$place" EE)"; done
    # a version that is not that of the opening, and no version
    echo "store 2 $length $(with "$store" 0003 0002)"
    echo "store 2 $length $(with "$limited" 0003 0001)"
    for version in 0000 0003 0102; do echo "store 2 $length $(with "$limited" 0003 "$version")"; done
    # used counts the opening bytes
    echo "store 0 64 $(with "${store%"${store#??????????????}"}" 0005 0007)"
    echo "store 2 64 $(with "${store%"${store#??????????????}"}" 0005 0006)"
    opening=${limited%"${limited#??????????????????????}"}
    echo "store 0 64 $(with "$opening" 0005 000B)"
    for used in 0000 0007 0008 0009 000A; do echo "store 2 64 $(with "$opening" 0005 "$used")"; done
    # the limits that a store chooses: as they are stored, given, and met by a load
    rows 'Chosen limit' | while IFS='|' read -r name least most standard; do
        case $name in depth*) place=0007 digits=2 ;; parents*) place=0008 digits=2 ;; *) place=0009 digits=4 ;; esac
        number=$(rows Limit | awk -F '|' -v name="$name" '$1 == name { print $4 }')
        for value in "$least" "$standard" "$most"; do
            echo "store 0 $length $(with "$limited" "$place" "$(printf "%0${digits}X" "$value")")"
            for others in 2 3; do echo "fresh 0 $(limits "$name" "$value" "$others")"; done
        done
        for value in $((least - 1)) $((most + 1)) $((digits == 2 ? 255 : 65535)); do
            echo "store 2 $length $(with "$limited" "$place" "$(printf "%0${digits}X" "$value")")"
            for others in 2 3; do echo "fresh 30 $(limits "$name" "$value" "$others")"; done
        done
        for value in "$least" $((least + 1)) $((standard - 1)) "$standard" $((standard + 1)) $((most - 1)) "$most"; do
            echo "chosen 0 $(limits "$name" "$value" 3) $value $name"
            echo "chosen $number $(limits "$name" "$value" 3) $((value + 1)) $name"
        done
    done
    # a file of version 2 in a store with the least limits
    echo "chosen 0 $(limits '' '' 2) 16 handlers of a code"
    for n in 1 2 3 4 5; do list "^$n\$" | sed "s/^/length $n /"; done
    list '^none' | sed 's/^/length 0 /'
    marked branch 1 'branch by the s1' | grep -v '^branch 0'
    marked branch 2 'branch by the s2' | grep -v '^branch 0'
    { list 'branch by'; } >"$out/branches"
    list '^[1-5]$' | grep -vxFf "$out/branches" | sed 's/^/branch 0 /'
    marked call 1 '^call the reference'
    marked last 1 'may be the last'
    rows Code | sed 's/^\([^|]*\)|\([^|]*\).*/code \2 \1/'
    rows 'Call by' | while IFS='|' read -r opcode class name number; do echo "load $number $(called "$opcode" "$class" "$name")"; done
    code=$(sed -n 's/^Handlers of the code `\([0-9A-F ]*\)`.*/\1/p' "$page")
    rows Start | while IFS='|' read -r start end target number; do echo "handler $number $start $end $target $code"; done
    rows 'Code without int' | sed 's/^\([^|]*\)|\([^|]*\).*/subset \2 \1/'
    # each instruction by its opcode, with 00 and with 0D behind it
    rows 'Barred opcodes' | cut -d'|' -f1 | opcodes | sort >"$out/barred"
    rows 'Barred by type' | cut -d'|' -f1 | opcodes | sort >"$out/typed"
    { list '^[1-5]$'; list '^a switch'; } | sort | while read -r opcode; do
        by_opcode=0 by_type=0
        if grep -qx "$opcode" "$out/barred"; then by_opcode=1 by_type=1; fi
        if grep -qx "$opcode" "$out/typed"; then by_type=1; fi
        echo "barred $by_opcode $opcode 00"
        echo "barred $by_type $opcode 0D"
    done
} >"$out/lines" || fail "the page cannot be read"

# the packages of the first two dumps are loaded in the week
for n in 1 2; do grep -q " $(dump $n)\$" examples/week.card || fail "dump $n is no file of the week"; done

# the ranges of the fields are those of the limits
while IFS='|' read -r field limit; do
    range=$(rows Field | awk -F '|' -v field="$field" '$1 == field { sub(/, or FF$|; in a store.*/, "", $3); print $3 }')
    said=$(rows Limit | awk -F '|' -v limit="$limit" '$1 == limit { print $2 " to " $3 }')
    [ -n "$range" ] && [ "$range" = "$said" ] || fail "the $field has the range $range, $limit: $said"
done <<'FIELDS'
domain count|domains of a file
import count|imports of a file
reference count|references of a file
class count|classes of a file
parent count|parents of a class
method count|methods of a class
allowed count|domains that a method allows
code length|bytes of a code
handler count|handlers of a code
FIELDS
while IFS='|' read -r field limit; do
    range=$(rows Field | awk -F '|' -v field="$field" '$1 == field { print $3 }')
    said=$(rows 'Chosen limit' | awk -F '|' -v limit="$limit" '$1 == limit { print $2 " to " $3 " " $4 }')
    standard=$(rows Limit | awk -F '|' -v limit="$limit" '$1 == limit { print $3 }')
    [ -n "$range" ] && [ "$range $standard" = "$said" ] || fail "the $field has the range $range and means $standard in version 1, $limit: $said"
done <<'FIELDS'
depth limit|depth of a class
parent limit|parents of a class
code limit|bytes of a code
FIELDS

# every opcode stands once in the table of lengths
{
    list '^[1-5]$'
    list '^a switch'
    list '^none'
} | sort >"$out/opcodes"
awk 'BEGIN { for (i = 0; i < 256; i++) printf "%02X\n", i }' | cmp -s - "$out/opcodes" || fail "the table has not each opcode once"
# 51 opcodes are barred, each once, and three by type
[ "$(wc -l <"$out/barred") $(sort -u "$out/barred" | wc -l) $(wc -l <"$out/typed")" = "51 51 3" ] || fail "other opcodes are barred"
for kind in limit chosen fresh load store length branch call last code handler subset barred; do
    grep -q "^$kind " "$out/lines" || fail "nothing is tried of: $kind"
done
"$out/formats" <"$out/lines" >"$out/said" || fail "the library says otherwise:" "$out/said"

echo "ok formats: $(cat "$out/said") of the page's limits, chosen limits, dumps, instructions, codes, calls, handlers and kinds of domains"
