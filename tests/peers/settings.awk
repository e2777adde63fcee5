# One tree of settings, written in MUON or in JSON (-v form=muon, -v form=json), as many machines as fit into so many bytes of MUON (-v bytes=8192).
# Both forms have the same Tuples (objects), Lots (arrays), names, Integers, Texts and Booleans, line by line in the same layout; each writes
# names and Booleans in its own usual way. No Fraction, since the library has no call for its value.

function text(value) {
    return "\"" value "\""
}

# A line of both: an attribute. What is not given in JSON is written alike.
function attribute(indent, name, muon, json) {
    add(indent name ": " muon, indent text(name) ": " (json == "" ? muon : json))
}

function add(muon, json) {
    lines++
    as["muon", lines] = muon
    as["json", lines] = json
}

function machine(number) {
    add("    (", "    {")
    attribute("      ", "name", text(places[number % 3] ", machine " number) ",")
    attribute("      ", "fuel", "diesel,", text("diesel") ",")
    attribute("      ", "start_below", -(5 + number % 20) ",")
    attribute("      ", "stop_above", 22 + number ",")
    attribute("      ", "relays", "{" number ", " number + 100 "},", "[" number ", " number + 100 "],")
    attribute("      ", "hours", "{18, 30},", "[18, 30],")
    attribute("      ", "crank_seconds", 12 ",")
    attribute("      ", "spare", (number % 2 ? "0bTRUE" : "0bFALSE") ",", (number % 2 ? "true" : "false") ",")
    attribute("      ", "plan", text("valley/plans/2026/november/machine-" number))
    add("    )", "    }")
}

# The bytes of lines first to last, with their line ends.
function bytes_of(first, last,    at, sum) {
    for (at = first; at <= last; at++) sum += length(as["muon", at]) + 1
    return sum
}

BEGIN {
    places[0] = "Orchard at the creek, upper rows"
    places[1] = "Orchard at the mill"
    places[2] = "Verger du ruisseau, rang\303\251e du bas"
    add("(", "{")
    attribute("  ", "site", text("Creek and mill") ",")
    attribute("  ", "poll_seconds", 30 ",")
    attribute("  ", "machines", "{", "[")
    total = bytes_of(1, lines) + length("  }\n)\n")
    for (number = 1; ; number++) {
        kept = lines
        machine(number)
        total += bytes_of(kept + 1, lines) + 1
        if (total > bytes) break
    }
    for (at = 1; at <= kept; at++) {
        # a comma behind every machine but the last
        comma = at < kept && as["json", at] == "    }" ? "," : ""
        print as[form, at] comma
    }
    print form == "muon" ? "  }\n)" : "  ]\n}"
}
