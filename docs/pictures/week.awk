# The week's store: a column for each domain, a band for each package in the order of loading, a row for each method.

function hex(digits,    n, i) {
    n = 0
    for (i = 1; i <= length(digits); i++) n = n * 16 + index("0123456789ABCDEF", substr(digits, i, 1)) - 1
    return n
}

# Reads at the place of the file in hand, and goes on.
function take(bytes,    said) {
    said = substr(file, at, 2 * bytes)
    at += 2 * bytes
    return said
}

function number(bytes) { return hex(take(bytes)) }

function take_aid(    n) {
    n = number(1)
    return take(n)
}

# What packages.c calls an AID; of another length or ending, its digits.
function called(aid) { return aid in title ? title[aid] : aid }

# Keeps what a package file says: its version, its methods with what they allow and call, and its parents.
function read_package(p, bytes,    i, j, k, n, m, allowed, bits) {
    file = bytes
    at = 1 + 2 * 3
    version[p] = number(2)
    take(2)
    aid_of[p] = take_aid()
    n = number(1)
    for (i = 0; i < n; i++) domain_at[i] = take_aid()
    domain_at[254] = lies[p]
    package_at[0] = aid_of[p]
    n = number(1)
    for (i = 1; i <= n; i++) package_at[i] = take_aid()
    references = number(2)
    for (i = 0; i < references; i++) {
        reference[i] = package_at[number(1)] " " number(1)
        reference[i] = reference[i] " " take(2)
    }
    n = number(1)
    for (i = 0; i < n; i++) {
        take(1)
        m = number(1)
        for (j = 0; j < m; j++) {
            parent = package_at[number(1)]
            parent_of[p, ++parents[p]] = parent " " number(1)
        }
        m = number(1)
        for (j = 0; j < m; j++) read_method(p, i)
    }
}

function read_method(p, class,    r, bits, name, n, i, code) {
    r = ++rows[p]
    bits = number(1)
    name = take(2)
    row_of[aid_of[p] " " class " " name] = r
    method[p, r] = word[name]
    key[p, r] = aid_of[p] " " class " " name
    n = number(1)
    if (n == 255) allows[p, r] = "every domain"
    else for (i = 0; i < n; i++) allows[p, r] = allows[p, r] (i > 0 ? " " : "") domain_at[number(1)]
    if (int(bits / 64) % 2 == 0) return
    code = take(number(2))
    # the week's codes have instructions of one byte and calls of three
    for (i = 1; i < length(code); i += 2) {
        if (substr(code, i, 2) !~ /^8[BCD]$/) continue
        call_from[++calls] = p
        call_row[calls] = r
        call_to[calls] = reference[hex(substr(code, i + 2, 4))]
        i += 4
    }
    # handlers are not drawn: a call inside one is a call of its method
    if (version[p] == 2) take(6 * number(1))
}

# "packages.c": NAME = {"name", length, {0x.., ..}}
FILENAME ~ /packages[.]c$/ && /const struct aid/ {
    digits = $0
    gsub(/.*[{]0x|[}][}];.*/, "", digits)
    gsub(/, 0x/, "", digits)
    called_as = $0
    gsub(/^[^"]*"|".*/, "", called_as)
    title[digits] = called_as
}
# "packages.h": NAME_WORD = 0x....
FILENAME ~ /packages[.]h$/ && /NAME_[A-Z]+ = 0x/ {
    n = split($0, part, /NAME_|[ ]+=[ ]+0x|,/)
    word[substr($0, index($0, "0x") + 2, 4)] = tolower(part[2])
}
FILENAME ~ /expected$/ {
    answer[$1] = $2
    used[$1] = $3
    if ($3 > most) { most = $3; fullest = $1 }
}
# Up to the fullest line, what was accepted; after it the first load that was refused.
FILENAME ~ /week[.]card$/ && FNR <= fullest && answer[FNR] == 0 {
    if ($1 == "C") { domain[++domains] = $2; column[$2] = domains }
    if ($1 == "L") entry[++entries] = $2 " " $3
    if ($1 == "R") {
        kept = 0
        for (i = 1; i <= entries; i++) {
            n = split(entry[i], part, " ")
            if (substr(part[2], 17, 2 * hex(substr(part[2], 15, 2))) != $2) entry[++kept] = entry[i]
        }
        entries = kept
    }
}
FILENAME ~ /week[.]card$/ && FNR > fullest && $1 == "L" && !refused { refused = $2 " " $3; refusal = answer[FNR] }

# The x where the columns begin, and the band of a package.
function left_of(c) { return GUTTER + (c - 1) * (WIDE + GUTTER) }
function row_y(p, r) { return top[p] + 28 + (r - 1) * 24 + 12 }

# Pills with the domains that a method allows, from the right edge of its box to the left.
function pills(p, r, x, y,    n, i, part, w) {
    n = split(allows[p, r], part, " ")
    if (n == 0) { text(x - width("no domain", 11) - 8, y + 4, "no domain", "small"); return }
    for (i = n; i >= 1; i--) {
        w = width(called(part[i]), 11) + 10
        x -= w + 5
        box(x, y - 9, w, 18, "pill" column[part[i]])
        text(x + w / 2, y + 4, called(part[i]), "pilltext")
    }
}

function draw_package(p, c, class,    r, x, label) {
    x = left_of(c)
    box(x, top[p], WIDE, height[p], class)
    label = called(aid_of[p])
    text(x + 10, top[p] + 19, label, "name")
    if (version[p] != 1) text(x + 16 + width(label, 13), top[p] + 19, "version " version[p], "small")
    if (class == "refused") text(x + 16 + width(label, 13), top[p] + 19, "refused with " refusal, "rednote")
    for (r = 1; r <= rows[p]; r++) {
        text(x + 18, row_y(p, r) + 4, method[p, r], "method")
        pills(p, r, x + WIDE - 6, row_y(p, r))
    }
}

# A line from a row to another: along its own band, along a lane of the gutter beside the target, then into the target.
function connect(p, r, q, s, class,    from, to, lane, y1, y2, side) {
    from = column[lies[p]]
    to = column[lies[q]]
    y1 = row_y(p, r) + 4
    y2 = s == 0 ? top[q] + 15 : row_y(q, s) - 4
    side = to < from || to == from ? 1 : 0
    lane = left_of(to + side) - GUTTER + 16 + 9 * lanes[to + side]++
    if (side) line(sprintf("M%d %d H%d V%d H%d", left_of(from) + (to == from ? WIDE : 0), y1, lane, y2, left_of(to) + WIDE + 2), class)
    else line(sprintf("M%d %d H%d V%d H%d", left_of(from) + WIDE, y1, lane, y2, left_of(to) - 2), class)
}

# The package that has a method, by package, class and name, or by package and class.
function package_of(words,    part, i) {
    split(words, part, " ")
    for (i = 1; i <= packages; i++) if (aid_of[i] == part[1]) return i
    return 0
}

# From the refused package on, what its calls would have reached.
function mark_chain(p,    i, q) {
    for (i = 1; i <= calls; i++) if (call_from[i] == p && !red[i]) {
        red[i] = 1
        q = package_of(call_to[i])
        if (q && q != p) mark_chain(q)
    }
}

END {
    WIDE = 280
    GUTTER = 60
    for (i = 1; i <= entries; i++) { split(entry[i], part, " "); lies[i] = part[1]; read_package(i, part[2]) }
    packages = entries
    split(refused, part, " ")
    lies[++packages] = part[1]
    read_package(packages, part[2])
    y = 64
    for (p = 1; p <= packages; p++) { top[p] = y; height[p] = 34 + 24 * rows[p]; y += height[p] + 16 }
    bottom = y - 4
    for (c = 1; c <= domains; c++) {
        box(left_of(c) - 8, 34, WIDE + 16, bottom - 34, "domain" c)
        text(left_of(c), 54, called(domain[c]), "head")
    }
    said = "The store after line " fullest " of the week, " most " bytes used; a package lies in its domain's column, in the order of loading"
    text(GUTTER - 8, 22, said, "small")
    mark_chain(packages)
    for (p = 1; p <= packages; p++) draw_package(p, column[lies[p]], p == packages ? "refused" : "package")
    for (i = 1; i <= calls; i++) if (!red[i]) connect(call_from[i], call_row[i], package_of(call_to[i]), row_of[call_to[i]], "call")
    for (p = 1; p <= packages; p++) for (i = 1; i <= parents[p]; i++) connect(p, 1, package_of(parent_of[p, i]), 0, "below")
    for (i = 1; i <= calls; i++) if (red[i]) connect(call_from[i], call_row[i], package_of(call_to[i]), row_of[call_to[i]], "red")
    y = bottom + 26
    x = GUTTER - 8
    line("M" x " " y " H" x + 40, "call"); text(x + 50, y + 4, "calls", "small")
    line("M" x + 110 " " y " H" x + 150, "below"); text(x + 160, y + 4, "its class has a parent there", "small")
    line("M" x + 360 " " y " H" x + 400, "red"); text(x + 410, y + 4, "the refused chain, from " method[packages, 1] " on", "small")
    w = width(called(domain[1]), 11) + 10
    box(x + 690, y - 9, w, 18, "pill1"); text(x + 690 + w / 2, y + 4, called(domain[1]), "pilltext")
    text(x + 700 + w, y + 4, "the method allows this domain", "small")
    points = "call #3e4c59 below #7b8794 red #c81e1e"
    finish(left_of(domains) + WIDE + GUTTER, y + 20, "The example week's store: domains, packages, calls, what each method allows, and the refused chain", \
        ".call { stroke: #3e4c59 } .below { stroke: #7b8794; stroke-dasharray: 5 4 } .red { stroke: #c81e1e; stroke-width: 2.2 }\n" \
        ".rednote { fill: #c81e1e; font-size: 11px }\n" \
        ".package { fill: #ffffff; stroke: #616e7c } .refused { fill: #fff5f5; stroke: #c81e1e; stroke-dasharray: 6 4; stroke-width: 1.6 }\n" \
        ".pilltext { font-size: 11px; fill: #ffffff; text-anchor: middle }\n" \
        ".domain1 { fill: #fdf3e3; stroke: #e9b44c } .domain2 { fill: #e8f1fb; stroke: #5b9bd5 } .domain3 { fill: #e9f7ef; stroke: #4caf7a }\n" \
        ".pill1 { fill: #b7791f } .pill2 { fill: #2b6cb0 } .pill3 { fill: #2f855a }")
}
