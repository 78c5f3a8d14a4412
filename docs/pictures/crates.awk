# The crates: a band for each in the order of crates.txt, what may live there beside it, and at the left a lane for each use.

# "LAYOUT.md": | `crate` | what may live there |
FILENAME ~ /LAYOUT[.]md$/ && /^[|] `[a-z_0-9]+` [|]/ {
    n = split($0, part, / *[|] */)
    gsub(/`/, "", part[2])
    gsub(/`/, "", part[3])
    says[part[2]] = part[3]
}
FILENAME ~ /crates[.]txt$/ && /^[a-z]/ {
    name[++crates] = $1
    sub(/:$/, "", name[crates])
    number[name[crates]] = crates
    sub(/^[^:]*:/, "")
    for (i = 1; i <= NF; i++) uses[crates, ++count[crates]] = $i
}

# Does a crate lead to another through a third? Then the direct line is left out.
function reaches(a, b,    i, u) {
    for (i = 1; i <= count[a]; i++) {
        u = number[uses[a, i]]
        if (u == b || (u > b && reaches(u, b))) return 1
    }
    return 0
}

function direct(a, b,    i, u) {
    for (i = 1; i <= count[a]; i++) {
        u = number[uses[a, i]]
        if (u > b && reaches(u, b)) return 0
    }
    return 1
}

# The first lane that is free from one band to another.
function lane_for(from, to,    lane, i, free) {
    for (lane = 1; ; lane++) {
        free = 1
        for (i = from; i < to; i++) if (taken[lane, i] && taken[lane, i] != from) free = 0
        if (!free) continue
        for (i = from; i < to; i++) taken[lane, i] = from
        if (lane > lanes) lanes = lane
        return lane
    }
}

# Splits a text into lines of at most so many characters.
function lines_of(said, most, lines,    n, part, i, k) {
    k = 1
    lines[1] = ""
    n = split(said, part, " ")
    for (i = 1; i <= n; i++) {
        if (length(lines[k]) + length(part[i]) + 1 > most) lines[++k] = ""
        lines[k] = lines[k] (lines[k] == "" ? "" : " ") part[i]
    }
    return k
}

END {
    for (a = 1; a <= crates; a++) {
        if (!(name[a] in says)) { print "docs/LAYOUT.md has no line for the crate " name[a] > "/dev/stderr"; exit 1 }
    }
    # the nearer uses first, so that long lines stay outside
    for (span = 1; span < crates; span++) for (b = 1; b + span <= crates; b++) {
        a = b + span
        for (i = 1; i <= count[a]; i++) if (number[uses[a, i]] == b && direct(a, b)) lane[b, a] = lane_for(b, a)
    }
    left = 26 + lanes * 11
    y = 56
    for (a = 1; a <= crates; a++) {
        place[a] = y
        n = lines_of(says[name[a]], 104, said)
        y += n > 2 ? 12 + n * 14 : 40
    }
    text(left, 24, "a package file's bytes", "head")
    text(left + 190, 24, "read, judged and stored from the top down; a crate uses those that a line leads to it from", "small")
    for (b = 1; b <= crates; b++) for (a = b + 1; a <= crates; a++) if ((b, a) in lane) {
        x = left - 12 - lane[b, a] * 11
        line(sprintf("M%d %d H%d V%d H%d", left, place[b] + 17, x, place[a] + 11, left - 2), "use" lane[b, a] % 4)
    }
    for (a = 1; a <= crates; a++) {
        y = place[a]
        class = says[name[a]] ~ /no code/ ? "laws" : (name[a] == "loader" || name[a] == "card" ? "entry" : "crate")
        box(left, y - 4, 92, 30, class)
        text(left + 10, y + 15, name[a], "name")
        n = lines_of(says[name[a]], 104, said)
        for (i = 1; i <= n; i++) text(left + 104, n == 1 ? y + 15 : y + 8 + (i - 1) * 14, said[i], "small")
    }
    y = place[crates] + 40
    text(left, y + 8, "the answer: number and figure", "head")
    points = "use0 #2b6cb0 use1 #52606d use2 #2f855a use3 #b7791f"
    finish(left + 800, y + 26, "From a file's bytes to the answer, crate by crate", \
        ".use0 { stroke: #2b6cb0 } .use1 { stroke: #52606d } .use2 { stroke: #2f855a } .use3 { stroke: #b7791f } .line { stroke-width: 1.3 }\n" \
        ".crate { fill: #e8f1fb; stroke: #5b9bd5 } .laws { fill: #fdf3e3; stroke: #e9b44c } .entry { fill: #e9f7ef; stroke: #4caf7a }")
}
