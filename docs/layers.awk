# Draws crates.txt as an SVG: below, the crates without code, from left to right; above them those with code, from the bottom to the top. A
# line joins a crate to one that it builds on, unless it does so through another one as well. What code has of the definitions is written
# into its box. Colours are the groups of crates.txt. Run by tests/draw.

# ---- crates.txt

/^#/ {
    groups++
    title[groups] = escaped(substr($0, 3))
    bare[groups] = /no code/
    next
}

NF {
    name = $1
    sub(/:$/, "", name)
    crates++
    crate[crates] = name
    index_of[name] = crates
    group[crates] = groups
    for (field = 2; field <= NF; field++) {
        # the kit's own crates have no line
        if ($field in index_of) builds_on(crates, index_of[$field])
    }
}

function escaped(words) {
    gsub(/&/, "\\&amp;", words)
    gsub(/</, "\\&lt;", words)
    return words
}

function builds_on(upper, lower,    at) {
    direct[upper, lower] = 1
    reaches[upper, lower] = 1
    for (at = 1; at < upper; at++) {
        if ((lower, at) in reaches) reaches[upper, at] = 1
    }
}

# Whether nothing stands between the two.
function next_to(upper, lower,    at) {
    if (!((upper, lower) in direct)) return 0
    for (at = 1; at < upper; at++) {
        if ((upper, at) in direct && (at, lower) in reaches) return 0
    }
    return 1
}

# ---- a panel: nodes are its crates, and points where a line passes a row

function new_node(at_row) {
    nodes++
    row[nodes] = at_row
    return nodes
}

function join_nodes(lower, upper) {
    above[lower, ++aboves[lower]] = upper
    below[upper, ++belows[upper]] = lower
}

# The row of each crate: the lowest that may be, or right below the first user if it has as many users as crates below.
function rows_of(panel,    at, other, ins, outs, first) {
    for (at = 1; at <= crates; at++) {
        if (panel_of[at] != panel) continue
        level[at] = 0
        for (other = 1; other < at; other++) {
            if ((at, other) in edge && level[other] >= level[at]) level[at] = level[other] + 1
        }
    }
    for (at = crates; at >= 1; at--) {
        if (panel_of[at] != panel) continue
        ins = outs = 0
        first = 1000
        for (other = 1; other <= crates; other++) {
            if ((at, other) in edge) ins++
            if ((other, at) in edge) {
                outs++
                if (level[other] < first) first = level[other]
            }
        }
        if (outs && outs >= ins) level[at] = first - 1
    }
}

function build(panel,    at, other, last, step, point) {
    top_row = 0
    split("", count_in)
    for (at = 1; at <= crates; at++) {
        if (panel_of[at] != panel) continue
        node_of[at] = new_node(level[at])
        crate_of[nodes] = at
        if (level[at] > top_row) top_row = level[at]
    }
    for (at = 1; at <= crates; at++) {
        for (other = 1; other < at; other++) {
            if (panel_of[at] != panel || !((at, other) in edge)) continue
            last = node_of[other]
            for (step = level[other] + 1; step < level[at]; step++) {
                point = new_node(step)
                join_nodes(last, point)
                last = point
            }
            join_nodes(last, node_of[at])
        }
    }
    for (at = first_node; at <= nodes; at++) place[row[at], ++count_in[row[at]]] = at
}

# Sorts a row by the mean place of the neighbours on one side.
function sort_row(of_row, upwards,    at, other, sum, key, node, swap) {
    for (at = 1; at <= count_in[of_row]; at++) {
        node = place[of_row, at]
        sum = 0
        if (upwards) {
            for (other = 1; other <= belows[node]; other++) sum += rank[below[node, other]]
            weight[node] = belows[node] ? sum / belows[node] : rank[node]
        } else {
            for (other = 1; other <= aboves[node]; other++) sum += rank[above[node, other]]
            weight[node] = aboves[node] ? sum / aboves[node] : rank[node]
        }
    }
    for (at = 2; at <= count_in[of_row]; at++) {
        for (other = at; other > 1; other--) {
            if (weight[place[of_row, other - 1]] <= weight[place[of_row, other]]) break
            swap = place[of_row, other]
            place[of_row, other] = place[of_row, other - 1]
            place[of_row, other - 1] = swap
        }
    }
    ranked(of_row)
}

function ranked(of_row,    at) {
    for (at = 1; at <= count_in[of_row]; at++) rank[place[of_row, at]] = at - (count_in[of_row] + 1) / 2
}

# Crossings of the lines, all rows together.
function crossings(    of_row, at, other, one, two, node, mate, sum) {
    for (of_row = 0; of_row < top_row; of_row++) {
        for (at = 1; at <= count_in[of_row]; at++) {
            for (other = at + 1; other <= count_in[of_row]; other++) {
                node = place[of_row, at]
                mate = place[of_row, other]
                for (one = 1; one <= aboves[node]; one++) {
                    for (two = 1; two <= aboves[mate]; two++) {
                        if (rank[above[node, one]] > rank[above[mate, two]]) sum++
                    }
                }
            }
        }
    }
    return sum + 0
}

function keep(    of_row, at) {
    for (of_row = 0; of_row <= top_row; of_row++) {
        for (at = 1; at <= count_in[of_row]; at++) kept[of_row, at] = place[of_row, at]
    }
}

function order(    round, of_row, at, best, now) {
    for (of_row = 0; of_row <= top_row; of_row++) ranked(of_row)
    best = crossings()
    keep()
    for (round = 1; round <= 30; round++) {
        if (round % 2) for (of_row = 1; of_row <= top_row; of_row++) sort_row(of_row, 1)
        else for (of_row = top_row - 1; of_row >= 0; of_row--) sort_row(of_row, 0)
        exchange()
        now = crossings()
        if (now < best) {
            best = now
            keep()
        }
    }
    for (of_row = 0; of_row <= top_row; of_row++) {
        for (at = 1; at <= count_in[of_row]; at++) place[of_row, at] = kept[of_row, at]
        ranked(of_row)
    }
}

# Exchanges neighbours as long as that saves crossings.
function exchange(    of_row, at, before, saved) {
    do {
        saved = 0
        for (of_row = 0; of_row <= top_row; of_row++) {
            for (at = 1; at < count_in[of_row]; at++) {
                before = crossings_at(of_row)
                turn(of_row, at)
                if (crossings_at(of_row) < before) saved = 1
                else turn(of_row, at)
            }
        }
    } while (saved)
}

function turn(of_row, at,    swap) {
    swap = place[of_row, at]
    place[of_row, at] = place[of_row, at + 1]
    place[of_row, at + 1] = swap
    ranked(of_row)
}

# Crossings of the lines below and above a row.
function crossings_at(of_row,    at, other, one, two, node, mate, sum) {
    for (at = 1; at <= count_in[of_row]; at++) {
        for (other = at + 1; other <= count_in[of_row]; other++) {
            node = place[of_row, at]
            mate = place[of_row, other]
            for (one = 1; one <= aboves[node]; one++) {
                for (two = 1; two <= aboves[mate]; two++) if (rank[above[node, one]] > rank[above[mate, two]]) sum++
            }
            for (one = 1; one <= belows[node]; one++) {
                for (two = 1; two <= belows[mate]; two++) if (rank[below[node, one]] > rank[below[mate, two]]) sum++
            }
        }
    }
    return sum + 0
}

# Where the nodes stand across: in their order and apart, first side by side around the middle, then each near the mean of its
# neighbours. No row becomes more than a tenth wider than the one that is widest then.
function stand(size, gap,    round, of_row, at, node, end) {
    limit = 0
    for (of_row = 0; of_row <= top_row; of_row++) {
        end = 0
        for (at = 1; at <= count_in[of_row]; at++) {
            node = place[of_row, at]
            across[node] = end + half(node, size)
            end = across[node] + half(node, size) + gap
        }
        for (at = 1; at <= count_in[of_row]; at++) across[place[of_row, at]] -= (end - gap) / 2
        if (0.55 * (end - gap) > limit) limit = 0.55 * (end - gap)
    }
    for (round = 1; round <= 200; round++) {
        for (of_row = 0; of_row <= top_row; of_row++) settle(round % 2 ? of_row : top_row - of_row, size, gap)
    }
}

function half(node, size) {
    return node in crate_of ? size / 2 : 3
}

# The mean of the neighbours, with a little of the middle.
function wish(node,    at, sum, count, mate, heavy) {
    count = 0.1
    for (at = 1; at <= belows[node]; at++) {
        mate = below[node, at]
        heavy = node in crate_of || mate in crate_of ? 1 : 6
        sum += heavy * across[mate]
        count += heavy
    }
    for (at = 1; at <= aboves[node]; at++) {
        mate = above[node, at]
        heavy = node in crate_of || mate in crate_of ? 1 : 6
        sum += heavy * across[mate]
        count += heavy
    }
    return sum / count
}

# The nearest to a wish that leaves room for those on both sides.
function within(of_row, at, wished, size,    least, most) {
    least = half(place[of_row, 1], size) - limit + shift[at]
    most = limit - half(place[of_row, count_in[of_row]], size) - shift[count_in[of_row]] + shift[at]
    return wished < least ? least : wished > most ? most : wished
}

# The nearest places to the wishes of a row that keep its order: neighbours that would overlap are moved together.
function settle(of_row, size, gap,    at, node, offset, blocks, value, heavy, first, last, run) {
    offset = 0
    blocks = 0
    for (at = 1; at <= count_in[of_row]; at++) {
        node = place[of_row, at]
        if (at > 1) offset += half(place[of_row, at - 1], size) + half(node, size) + gap
        shift[at] = offset
        blocks++
        value[blocks] = wish(node) - offset
        heavy[blocks] = node in crate_of ? 1 : 8
        first[blocks] = at
        while (blocks > 1 && value[blocks - 1] > value[blocks]) {
            value[blocks - 1] = (value[blocks - 1] * heavy[blocks - 1] + value[blocks] * heavy[blocks]) / (heavy[blocks - 1] + heavy[blocks])
            heavy[blocks - 1] += heavy[blocks]
            blocks--
        }
    }
    for (run = 1; run <= blocks; run++) {
        last = run < blocks ? first[run + 1] - 1 : count_in[of_row]
        for (at = first[run]; at <= last; at++) across[place[of_row, at]] = within(of_row, at, value[run] + shift[at], size)
    }
}

# ---- drawing

function put(text) {
    body = body text "\n"
}

function bounds(size,    at) {
    low = 100000
    high = -100000
    for (at = first_node; at <= nodes; at++) {
        if (across[at] - half(at, size) < low) low = across[at] - half(at, size)
        if (across[at] + half(at, size) > high) high = across[at] + half(at, size)
    }
}

# Where a line leaves a crate: lines are spread by where they go.
function port(node, mate, upwards, room,    at, count, before, other) {
    if (!(node in crate_of)) return across[node]
    count = upwards ? aboves[node] : belows[node]
    for (at = 1; at <= count; at++) {
        other = upwards ? above[node, at] : below[node, at]
        if (across[other] < across[mate] || across[other] == across[mate] && other < mate) before++
    }
    return across[node] + (before - (count - 1) / 2) * (room / count < 16 ? room / count : 16)
}

# From a node to one in the next row, and past that one if it is a point of a line.
function stretch(node, other, upwards,    start, end, from, to, middle) {
    start = port(node, other, 1, upwards ? 70 : 20) + across_from
    end = port(other, node, 0, upwards ? 70 : 20) + across_from
    if (upwards) {
        from = y_of(node)
        to = y_of(other) + box_high
        middle = (from + to) / 2
        return sprintf("M%.1f %.1fC%.1f %.1f %.1f %.1f %.1f %.1f", start, from, start, middle, end, middle, end, to) \
            (other in crate_of ? "" : sprintf("V%.1f", to - box_high))
    }
    from = x_of(node) + bare_wide
    to = x_of(other)
    middle = (from + to) / 2
    return sprintf("M%.1f %.1fC%.1f %.1f %.1f %.1f %.1f %.1f", from, start, middle, start, middle, end, to, end) \
        (other in crate_of ? "" : sprintf("H%.1f", to + bare_wide))
}

# A line from a crate to each of its users, in the colour of the crate.
function lines(upwards,    at, node, last, path) {
    for (node = first_node; node <= nodes; node++) {
        if (!(node in crate_of)) continue
        path = ""
        for (at = 1; at <= aboves[node]; at++) {
            last = above[node, at]
            path = path stretch(node, last, upwards)
            for (; !(last in crate_of); last = above[last, 1]) path = path stretch(last, above[last, 1], upwards)
        }
        if (path != "") put(sprintf("<path class=\"line\" stroke=\"%s\" d=\"%s\"/>", dark[group[crate_of[node]]], path))
    }
}

function text(class, x, y, words) {
    put(sprintf("<text class=\"%s\" x=\"%.1f\" y=\"%.1f\">%s</text>", class, x, y, words))
}

function rectangle(x, y, wide, high, of_group) {
    put(sprintf("<rect x=\"%.1f\" y=\"%.1f\" width=\"%d\" height=\"%d\" rx=\"4\" fill=\"%s\" stroke=\"%s\"/>", x, y, wide, high,
        light[of_group], dark[of_group]))
}

function box(x, y, wide, high, at, under) {
    rectangle(x, y, wide, high, group[at])
    text("name", x + wide / 2, y + high / 2 + (under == "" ? 4.5 : -1.5), crate[at])
    if (under != "") text("under", x + wide / 2, y + high / 2 + 11.5, under)
}

# The definitions that a crate builds on and that no crate with code below it does.
function stands_on(at,    other, words) {
    for (other = 1; other < at; other++) {
        if (panel_of[other] == "bare" && next_to(at, other)) words = words (words == "" ? "" : ", ") crate[other]
    }
    return words
}

function palette(    at, lights, darks, count) {
    count = split("#eceef1 #d6e6fb #d5efd9 #fdeac4 #f9dcd3 #e9dcf7 #d2eeee #f6d8e8 #e4e6c8", lights, " ")
    split("#8a9099 #4a7fc1 #4b9a5c #c08a1e #c46a4c #8a63bd #3b9294 #b65a8a #83883d", darks, " ")
    for (at = 1; at <= groups; at++) {
        light[at] = lights[(at - 1) % count + 1]
        dark[at] = darks[(at - 1) % count + 1]
    }
}

function start_panel(panel) {
    first_node = nodes + 1
    split("", place)
    split("", crate_of)
    rows_of(panel)
    build(panel)
    order()
}

function y_of(node) {
    return code_top + (top_row - row[node]) * row_pitch
}

function x_of(node) {
    return margin + row[node] * column_pitch
}

function draw_code(    at) {
    start_panel("code")
    stand(box_wide, 12)
    bounds(box_wide)
    wide = high - low
    across_from = margin - low
    text("head", margin, 30, "Code, proved against the definitions named in italics")
    lines(1)
    for (at = first_node; at <= nodes; at++) {
        if (at in crate_of) box(across[at] + across_from - box_wide / 2, y_of(at), box_wide, box_high, crate_of[at], stands_on(crate_of[at]))
    }
    bottom = code_top + top_row * row_pitch + box_high
}

function draw_bare(    at) {
    start_panel("bare")
    stand(bare_high, 14)
    bounds(bare_high)
    column_pitch = top_row ? (wide - bare_wide) / top_row : 0
    across_from = bottom + 66 - low
    text("head", margin, bottom + 48, "Definitions and laws, no code")
    lines(0)
    for (at = first_node; at <= nodes; at++) {
        if (at in crate_of) box(x_of(at), across[at] + across_from - bare_high / 2, bare_wide, bare_high, crate_of[at], "")
    }
    bottom += 66 + high - low
}

# What the colours are, in two columns.
function draw_groups(    at, x, y) {
    for (at = 1; at <= groups; at++) {
        x = margin + (at - 1) % 2 * wide * 0.5
        y = bottom + 32 + int((at - 1) / 2) * 22
        rectangle(x, y, 14, 14, at)
        text("group", x + 21, y + 11.5, title[at])
    }
    bottom = y + 14
}

END {
    for (at = 1; at <= crates; at++) panel_of[at] = bare[group[at]] ? "bare" : "code"
    for (at = 1; at <= crates; at++) {
        for (other = 1; other < at; other++) {
            if (panel_of[at] == panel_of[other] && next_to(at, other)) edge[at, other] = 1
        }
    }
    palette()
    margin = 24
    code_top = 52
    row_pitch = 70
    box_wide = 110
    box_high = 38
    bare_wide = 84
    bare_high = 28
    draw_code()
    draw_bare()
    draw_groups()
    width = int(wide + 2 * margin + 0.5)
    height = int(bottom + margin + 0.5)
    printf "<svg xmlns=\"http://www.w3.org/2000/svg\" viewBox=\"0 0 %d %d\" width=\"%d\" height=\"%d\" role=\"img\">\n", width, height, width, height
    print "<title>The crates, each above those that it builds on</title>"
    print "<style>"
    print "text{font-family:Helvetica,Arial,sans-serif;fill:#1f2328}"
    print ".name{font-size:13px;font-weight:bold;text-anchor:middle}"
    print ".under{font-size:10.5px;font-style:italic;text-anchor:middle;fill:#4b535c}"
    print ".head{font-size:14px;font-weight:bold}"
    print ".group{font-size:12px}"
    print ".line{fill:none;stroke-width:1.3}"
    print "</style>"
    printf "<rect x=\"0.5\" y=\"0.5\" width=\"%d\" height=\"%d\" rx=\"8\" fill=\"#ffffff\" stroke=\"#d0d7de\"/>\n", width - 1, height - 1
    printf "%s", body
    print "</svg>"
}
