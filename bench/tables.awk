# The tables of what was measured: the lines of each run (bench.c says which), then the instructions, as
# count GROUP TASK BLOCKS SIDE INSTRUCTIONS. With crate=0 there is nothing to compare with: times only.
BEGIN { FS = "\t" }
FNR == 1 { run++ }
$1 == "side" && !($2 in known) { known[$2] = 1; side[++sides] = $2; title[$2] = $2 ($3 == "" ? "" : " " $3) }
$1 == "time" {
    key = $2 SUBSEP $3 SUBSEP $4
    if (!(key in limit)) { keys[++tasks] = key; group[key] = $2; name[key] = $3; blocks[key] = $4; limit[key] = $5 }
    median[key, $6, run] = $7
    lower[key, $6] = $8
    upper[key, $6] = $9
    runs = run
}
$1 == "count" { instructions[$2, $3, $4, $5] = $6; counted = 1 }
END {
    ours = side[1]
    rust = crate ? side[2] : ""
    title[rust] = "the crate"
    if (crate) {
        compare_table("keys", "Under round keys")
        compare_table("host", "Whole operations, key setup included")
        size_table()
    } else {
        times_table("keys", "Under round keys")
        times_table("host", "Whole operations, key setup included")
    }
}

# ---- Numbers ----

function whole(n,    text, out) {
    text = sprintf("%.0f", n)
    while (length(text) > 3) {
        out = "," substr(text, length(text) - 2) out
        text = substr(text, 1, length(text) - 3)
    }
    return text out
}
function nanoseconds(n) { return n < 1000 ? sprintf("%.1f", n) : whole(n) }
function spread(key, of) {
    return nanoseconds(median[key, of, runs]) " (" nanoseconds(lower[key, of]) " to " nanoseconds(upper[key, of]) ")"
}
# The ratio to the crate, of each run.
function ratios(key, of,    r, text) {
    for (r = 1; r <= runs; r++) text = text (r == 1 ? "" : ", ") sprintf("%.2f", median[key, of, r] / median[key, rust, r])
    return text
}

# ---- Tables: cells are put one by one, and written with their columns in line ----

function put(text) { cell[rows, ++columns] = text; if (length(text) > width[columns]) width[columns] = length(text) }
function next_row() { rows++; columns = 0 }
function write_table(heading,    r, c, line) {
    if (heading != "") print "### " heading "\n"
    for (r = 1; r <= rows; r++) {
        line = "|"
        for (c = 1; c <= columns; c++) line = line sprintf(" %-" width[c] "s |", cell[r, c])
        print line
        if (r > 1) continue
        for (c = 1; c <= columns; c++) printf "|%s", dashes(width[c] + 2)
        print "|"
    }
    print ""
    split("", cell)
    split("", width)
    rows = columns = 0
}
function dashes(n,    text) {
    while (n-- > 0) text = text "-"
    return text
}

function compare_table(of_group, heading,    i, s, key) {
    next_row()
    put("task"); put("limit"); put("ratio, each run"); put(ours ", ns"); put("the crate, ns")
    if (counted) { put(ours ", instructions"); put("the crate, instructions") }
    for (i = 1; i <= tasks; i++) {
        key = keys[i]
        if (group[key] != of_group) continue
        next_row()
        put(name[key]); put(limit[key] > 0 ? limit[key] : ""); put(ratios(key, ours)); put(spread(key, ours)); put(spread(key, rust))
        if (counted) { put(whole(instructions[key, ours])); put(whole(instructions[key, rust])) }
    }
    write_table(heading)
    if (sides < 3) return
    print "The other libraries, as ratios to the crate" (counted ? ", and their instructions" : "") ":\n"
    next_row()
    put("task")
    for (s = 3; s <= sides; s++) put(title[side[s]] ", each run")
    if (counted) for (s = 3; s <= sides; s++) put(side[s] ", instructions")
    for (i = 1; i <= tasks; i++) {
        key = keys[i]
        if (group[key] != of_group) continue
        next_row()
        put(name[key])
        for (s = 3; s <= sides; s++) put(ratios(key, side[s]))
        if (counted) for (s = 3; s <= sides; s++) put(whole(instructions[key, side[s]]))
    }
    write_table("")
}

function times_table(of_group, heading,    i, s, key) {
    next_row()
    put("task")
    for (s = 1; s <= sides; s++) put(title[side[s]] ", ns")
    for (i = 1; i <= tasks; i++) {
        key = keys[i]
        if (group[key] != of_group) continue
        next_row()
        put(name[key])
        for (s = 1; s <= sides; s++) put(spread(key, side[s]))
    }
    write_table(heading)
}

# ---- Cost against size ----

function cost(way, n, of) { return median["size", way, n, of, runs] }

# A line by least squares through the sizes that are multiples of 16, from 16 on: its beginning, its slope, and the greatest
# deviation from it in percent of what was measured.
function fit(way, of,    i, x, y, sx, sy, sxx, sxy, m, d) {
    for (i = 1; i <= tasks; i++)
        if (group[keys[i]] == "size" && name[keys[i]] == way && blocks[keys[i]] > 0 && blocks[keys[i]] % 16 == 0) {
            x = blocks[keys[i]]
            y = cost(way, x, of)
            m++; sx += x; sy += y; sxx += x * x; sxy += x * y
        }
    slope = (m * sxy - sx * sy) / (m * sxx - sx * sx)
    beginning = (sy - slope * sx) / m
    deviation = 0
    for (i = 1; i <= tasks; i++)
        if (group[keys[i]] == "size" && name[keys[i]] == way && blocks[keys[i]] > 0 && blocks[keys[i]] % 16 == 0) {
            x = blocks[keys[i]]
            y = cost(way, x, of)
            d = 100 * (beginning + slope * x - y) / y
            if (d < 0) d = -d
            if (d > deviation) { deviation = d; place = x }
        }
}

function size_table(    i, n, w, ways, s) {
    split("deciphered enciphered", ways, " ")
    next_row()
    put("blocks")
    for (s = 1; s <= 2; s++) for (w = 1; w <= 2; w++) put(title[side[s]] ", " ways[w] ", ns")
    for (i = 1; i <= tasks; i++)
        if (group[keys[i]] == "size" && name[keys[i]] == ways[1]) {
            n = blocks[keys[i]]
            next_row()
            put(n)
            for (s = 1; s <= 2; s++) for (w = 1; w <= 2; w++) put(nanoseconds(cost(ways[w], n, side[s])))
        }
    write_table("Cost against size: a chain, key setup included")
    print "What each of the first 15 blocks adds, and a line by least squares through the multiples of 16, from 16 to 256:\n"
    next_row()
    put("chain"); put("each block to 15, ns"); put("the line at no blocks, ns"); put("each block, ns"); put("greatest deviation from it, of what was measured")
    for (s = 1; s <= 2; s++)
        for (w = 1; w <= 2; w++) {
            fit(ways[w], side[s])
            next_row()
            put(title[side[s]] ", " ways[w]); put(nanoseconds((cost(ways[w], 15, side[s]) - cost(ways[w], 0, side[s])) / 15)); put(nanoseconds(beginning)); put(nanoseconds(slope))
            put(sprintf("%.1f %% (at %d blocks)", deviation, place))
        }
    write_table("")
}
