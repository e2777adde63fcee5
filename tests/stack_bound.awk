# From `objdump -dr` of an archive: the stack that a call of each exported function needs at most, in bytes.
# A function's frame is its return address, what it pushes and what it takes off the stack pointer. Calls are followed; where functions
# call each other in a circle, each may stand on the stack once for each open bracket and once more, which is what the code promises
# (the depth is tested before the next bracket is read). A red zone is added for the last function. A long frame is taken page by page,
# perhaps in a loop up to a goal. memset is the C library's, and is taken to need its return address and a red zone.
# Variables: depth (open brackets), exported (names, separated by spaces).

function number(hex,    value, i) {
    sub(/^0x/, "", hex)
    value = 0
    for (i = 1; i <= length(hex); i++) value = value * 16 + index("0123456789abcdef", substr(hex, i, 1)) - 1
    return value
}

function grow(bytes) {
    extra += bytes
    if (extra < 0) extra = 0
    if (extra > most[here]) most[here] = extra
}

function calls(name) {
    if (!((here, name) in edge)) {
        edge[here, name] = 1
        callees[here] = callees[here] " " name
    }
}

# Whether `to` is reached from `from`.
function reaches(from, to) {
    delete visited
    return walk(from, to)
}

function walk(from, to,    names, n, i) {
    n = split(callees[from], names, " ")
    for (i = 1; i <= n; i++) {
        if (names[i] == to) return 1
        if (!(names[i] in visited)) {
            visited[names[i]] = 1
            if (walk(names[i], to)) return 1
        }
    }
    return 0
}

# The deepest stack from `name` on. Functions of one circle are counted together.
function deepest(name,    all, n, i, j, ring, names, best, below, sum) {
    if (name in known) return known[name]
    sum = most[name]
    n = split(functions, all, " ")
    ring = name
    if (reaches(name, name)) {
        for (i = 1; i <= n; i++)
            if (all[i] != name && reaches(name, all[i]) && reaches(all[i], name)) {
                ring = ring " " all[i]
                sum += most[all[i]]
            }
        sum *= depth + 1
    }
    best = 0
    n = split(ring, all, " ")
    for (i = 1; i <= n; i++) inring[name, all[i]] = 1
    for (i = 1; i <= n; i++) {
        j = split(callees[all[i]], names, " ")
        for (; j > 0; j--)
            if (!((name, names[j]) in inring)) {
                below = deepest(names[j])
                if (below > best) best = below
            }
    }
    known[name] = sum + best
    return known[name]
}

/^[0-9a-f]+ <.*>:$/ {
    here = $2
    sub(/^</, "", here)
    sub(/>:$/, "", here)
    functions = functions " " here
    most[here] = 8
    extra = 8
    opening = 1
    goal = 0
    next
}

/^ +[0-9a-f]+:/ {
    if ($2 == "push") grow(8)
    else if ($2 == "pop") extra -= 8
    else if ($2 == "sub" && $3 ~ /,%rsp$/) { split($3, part, /[$,]/); grow(number(part[2])) }
    else if ($2 == "add" && $3 ~ /,%rsp$/) { split($3, part, /[$,]/); extra -= number(part[2]) }
    else if ($2 == "mov" && $3 == "%rsp,%r11") goal = extra
    else if ($2 == "sub" && $3 ~ /,%r11$/ && goal) { split($3, part, /[$,]/); goal += number(part[2]) }
    else if ($2 == "lea" && $3 ~ /^-0x[0-9a-f]+\(%rsp\),%r11$/) { split($3, part, /[-(]/); goal = extra + number(part[2]) }
    else if ($2 == "cmp" && $3 == "%r11,%rsp" && goal) { grow(goal - extra); goal = 0; looping = 1; next }
    else if ($2 == "jne" && looping) { looping = 0; next }
    else if (($2 == "lea" || $2 == "and" || $2 == "mov") && $3 ~ /,%rsp$/) { print "cannot follow: " $0; failed = 1; exit 1 }
    else if ($2 == "call" && $3 ~ /^\*/) { print "cannot follow: " $0; failed = 1; exit 1 }
    else if ($2 == "call" && $4 !~ /\+/) { name = $4; gsub(/[<>]/, "", name); calls(name) }
    # behind the ways out the stack is as high as it was behind the way in
    if (opening && $2 != "push" && !($2 == "sub" && $3 ~ /,%rsp$/) && ($2 ~ /^(call|j|ret)/)) { opening = 0; base = extra }
    if (!opening && ($2 == "ret" || $2 == "jmp")) extra = base
    next
}

/R_X86_64_(PLT32|PC32)/ {
    name = $3
    sub(/[-+]0x[0-9a-f]+$/, "", name)
    if (name ~ /^\.text\./) { sub(/^\.text\./, "", name); calls(name) }
    else if (name ~ /^memset$/) { most[name] = 8; calls(name) }
    else if (name !~ /^\./) { print "calls what the archive has not: " name; failed = 1; exit 1 }
}

END {
    if (failed) exit 1
    n = split(exported, names, " ")
    for (i = 1; i <= n; i++) {
        if (!(names[i] in most)) { print "not in the archive: " names[i]; exit 1 }
        print names[i], deepest(names[i]) + 128
    }
}
