# Shapes for the drawings: each adds to the body, which finish() writes with the size that it came to.

# A text of this size has about this width.
function width(text, size) { return length(text) * size * 0.6 }

function escaped(text) {
    gsub(/&/, "\\&amp;", text)
    gsub(/</, "\\&lt;", text)
    gsub(/>/, "\\&gt;", text)
    return text
}

function add(line) { body = body line "\n" }

function box(x, y, w, h, class) { add(sprintf("<rect x=\"%d\" y=\"%d\" width=\"%d\" height=\"%d\" rx=\"5\" class=\"%s\"/>", x, y, w, h, class)) }

function text(x, y, said, class) { add(sprintf("<text x=\"%d\" y=\"%d\" class=\"%s\">%s</text>", x, y, class, escaped(said))) }

# A line from place to place with right angles, drawn by a path of "M x y H x V y H x"; with a point at its end.
function line(path, class) { add(sprintf("<path d=\"%s\" class=\"%s\" marker-end=\"url(#%s)\"/>", path, "line " class, class)) }

# The name of a set of shapes, for those who cannot see it.
function finish(w, h, title, colors,    i, n, name) {
    printf "<svg xmlns=\"http://www.w3.org/2000/svg\" viewBox=\"0 0 %d %d\" width=\"%d\" height=\"%d\" role=\"img\">\n", w, h, w, h
    printf "<title>%s</title>\n<style>\n", escaped(title)
    print "text { font-family: 'DejaVu Sans', Verdana, Arial, sans-serif; font-size: 12px; fill: #1f2933 }"
    print ".head { font-size: 15px; font-weight: bold } .name { font-weight: bold } .small { font-size: 11px; fill: #52606d }"
    print ".line { fill: none; stroke-width: 1.6 } .frame { fill: #ffffff; stroke: #9aa5b1 }"
    print colors
    print "</style>\n<defs>"
    n = split(points, name, " ")
    for (i = 1; i <= n; i += 2) {
        printf "<marker id=\"%s\" viewBox=\"0 0 8 8\" refX=\"7\" refY=\"4\" markerWidth=\"7\" markerHeight=\"7\" orient=\"auto\">", name[i]
        printf "<path d=\"M0 0 L8 4 L0 8 z\" fill=\"%s\"/></marker>\n", name[i + 1]
    }
    printf "</defs>\n<rect width=\"%d\" height=\"%d\" fill=\"#ffffff\"/>\n%s</svg>\n", w, h, body
}
