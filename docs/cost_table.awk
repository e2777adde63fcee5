# The table of docs/PERFORMANCE.md from docs/cost.txt: instructions per byte and per node, and how many times those of another the proved
# library takes, whose line is the first. tests/draw checks that the document has this table.

function named(reader, version, way) {
    if (reader == "muon") return "**the proved library**, a table"
    if (way == "tree") way = "a tree"
    if (way == "in-place") way = "a tree in place"
    if (way == "calls") way = "calls back, no tree"
    return reader " " version ", " way
}

function with_comma(number) {
    return number < 1000 ? number : int(number / 1000) "," sprintf("%03d", number % 1000)
}

function times(ours, theirs) {
    return lines == 1 ? "" : sprintf("%.1f", ours / theirs)
}

BEGIN {
    print "| reader | bytes | per byte: reading alone | decoded | freeing | per node: reading alone | decoded | the library over it: reading alone | decoded |"
    print "|---|---|---|---|---|---|---|---|---|"
}

!/^#/ {
    if (!lines++) {
        alone = $6
        decoded = $7
    }
    printf "| %s | %s | %.1f | %.1f | %.1f | %s | %s | %s | %s |\n", named($1, $2, $3), with_comma($4), $6 / $4, $7 / $4, $8 / $4,
        with_comma(int($6 / $5 + 0.5)), with_comma(int($7 / $5 + 0.5)), times(alone, $6), times(decoded, $7)
}
