# The ratio to the crate for each task, as bars in SVG, from the lines of one run.
BEGIN { FS = "\t"; wide = 760; left = 290; right = 60; top = 50; row = 24; most = 1 }
$1 == "side" { side[++sides] = $2 }
$1 == "time" && $2 != "size" {
    key = $2 SUBSEP $3
    if ($6 == side[1]) { keys[++tasks] = key; name[key] = $3; group[key] = $2; limit[key] = $5; ours[key] = $7 }
    if ($6 == side[2]) { ratio[key] = ours[key] / $7; if (ratio[key] > most) most = ratio[key] }
}
function across(r) { return left + r / top_ratio * (wide - left - right) }
function text(x, y, anchor, words) { printf "<text x=\"%.1f\" y=\"%.1f\" text-anchor=\"%s\">%s</text>\n", x, y, anchor, words }
function rule(x, y1, y2, colour, width) { printf "<line x1=\"%.1f\" y1=\"%.1f\" x2=\"%.1f\" y2=\"%.1f\" stroke=\"%s\" stroke-width=\"%d\"/>\n", x, y1, x, y2, colour, width }
END {
    top_ratio = int(most * 4 + 1) / 4
    high = top + (tasks + 2) * row + 60
    printf "<svg xmlns=\"http://www.w3.org/2000/svg\" viewBox=\"0 0 %d %d\" font-family=\"sans-serif\" font-size=\"13\" fill=\"#222\">\n", wide, high
    print "<title>Time as a ratio to the Rust crate, for each task; less is faster</title>"
    printf "<rect width=\"%d\" height=\"%d\" fill=\"#fff\"/>\n", wide, high
    text(left, top - 25, "start", "time as a ratio to the Rust crate: less is faster")
    y = top
    for (i = 1; i <= tasks; i++) {
        key = keys[i]
        if (group[key] != before) {
            printf "<text x=\"%.1f\" y=\"%.1f\" text-anchor=\"end\" font-weight=\"bold\">%s</text>\n", left - 10, y + 15, group[key] == "keys" ? "under round keys" : "whole operations"
            before = group[key]
            y += row
        }
        text(left - 10, y + 15, "end", name[key])
        printf "<rect x=\"%.1f\" y=\"%.1f\" width=\"%.1f\" height=\"%d\" fill=\"#1f5fbf\"/>\n", left, y + 3, across(ratio[key]) - left, row - 8
        if (limit[key] > 0) rule(across(limit[key]), y + 1, y + row - 3, "#c2410c", 3)
        text(wide - 20, y + 15, "end", sprintf("%.2f", ratio[key]))
        y += row
    }
    for (r = 0; r <= top_ratio; r += 0.25) text(across(r), y + 20, "middle", sprintf("%.2f", r))
    rule(left, top, y, "#222", 1)
    rule(across(1), top, y + 6, "#222", 1)
    text(20, y + 45, "start", "the line at 1.00 is the crate; a short red line is the limit that the project set itself")
    print "</svg>"
}
