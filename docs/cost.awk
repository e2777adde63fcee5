# Draws docs/cost.txt as an SVG: for each reader and way a bar for the reading alone and one for the reading with all decoded, in
# instructions per byte of its own text, the dearest first. Run by tests/draw.

!/^#/ {
    readers++
    ours[readers] = $1 == "muon"
    name[readers] = named($1, $3)
    alone[readers] = $6 / $4
    decoded[readers] = $7 / $4
    if (ours[readers]) muon_bytes = $4
    else json_bytes = $4
    nodes = $5
}

function named(reader, way) {
    if (reader == "muon") return "the proved library"
    if (way == "tree") return reader ", a tree"
    if (way == "in-place") return reader ", a tree in place"
    return reader ", calls back"
}

# The readers by what they cost with all decoded, in rank[1] and on.
function sort(    at, other, swap) {
    for (at = 1; at <= readers; at++) {
        rank[at] = at
        for (other = at; other > 1 && decoded[rank[other - 1]] < decoded[rank[other]]; other--) {
            swap = rank[other]
            rank[other] = rank[other - 1]
            rank[other - 1] = swap
        }
    }
}

function text(class, x, y, words) {
    printf "<text class=\"%s\" x=\"%.1f\" y=\"%.1f\">%s</text>\n", class, x, y, words
}

function bar(y, value, colour) {
    printf "<rect x=\"%d\" y=\"%.1f\" width=\"%.1f\" height=\"13\" fill=\"%s\"/>\n", left, y, value * scale, colour
    text("value", left + value * scale + 6, y + 10.5, sprintf("%.0f", value))
}

function with_comma(number) {
    return number < 1000 ? number : int(number / 1000) "," sprintf("%03d", number % 1000)
}

function key(x, colour, words) {
    printf "<rect x=\"%d\" y=\"58\" width=\"13\" height=\"13\" fill=\"%s\"/>\n", x, colour
    text("small", x + 19, 68.5, words)
}

function grid(    at, x, end) {
    end = top + readers * pitch
    for (at = 0; at <= most; at += 50) {
        x = left + at * scale
        printf "<path d=\"M%.1f %dV%d\" stroke=\"#d8dee4\"/>\n", x, top - 8, end
        text("tick", x, end + 16, at)
    }
}

END {
    sort()
    left = 196
    top = 92
    pitch = 38
    width = 760
    most = 50 * (1 + int(decoded[rank[1]] / 50))
    scale = (width - left - 50) / most
    height = top + readers * pitch + 34
    printf "<svg xmlns=\"http://www.w3.org/2000/svg\" viewBox=\"0 0 %d %d\" width=\"%d\" height=\"%d\" role=\"img\">\n", width, height, width, height
    print "<title>Instructions per byte to read the same settings</title>"
    print "<style>"
    print "text{font-family:Helvetica,Arial,sans-serif;font-size:12.5px;fill:#1f2328}"
    print ".head{font-size:15px;font-weight:bold}"
    print ".small,.tick{font-size:12px;fill:#4b535c}"
    print ".tick{text-anchor:middle}"
    print ".name,.ours{text-anchor:end}"
    print ".ours{font-weight:bold}"
    print "</style>"
    printf "<rect x=\"0.5\" y=\"0.5\" width=\"%d\" height=\"%d\" rx=\"8\" fill=\"#ffffff\" stroke=\"#d0d7de\"/>\n", width - 1, height - 1
    text("head", 24, 28, "Instructions per byte to read the same settings")
    text("small", 24, 46, sprintf("%s nodes: %s bytes of MUON for the proved library, %s bytes of JSON for the others; fewer is better", \
        with_comma(nodes), with_comma(muon_bytes), with_comma(json_bytes)))
    key(24, "#9db8d9", "the reading alone")
    key(170, "#3c5f8a", "with every Integer and Text decoded (a tree has them decoded)")
    grid()
    for (at = 1; at <= readers; at++) {
        one = rank[at]
        y = top + (at - 1) * pitch
        text(ours[one] ? "ours" : "name", left - 10, y + 18, name[one])
        bar(y, alone[one], ours[one] ? "#eab676" : "#9db8d9")
        bar(y + 14, decoded[one], ours[one] ? "#b4641a" : "#3c5f8a")
    }
    print "</svg>"
}
