# Cost against size, as a plot in SVG: a chain of 0 to 256 blocks, ours and the crate's, from the lines of one run.
BEGIN { FS = "\t"; wide = 760; high = 460; left = 70; right = 190; top = 40; bottom = 60 }
$1 == "side" { side[++sides] = $2 }
$1 == "time" && $2 == "size" {
    line = $6 == side[1] ? "barkmottle, " $3 : "the crate, " $3
    if (!(line in points)) order[++lines] = line
    size[line, ++points[line]] = $4
    cost[line, points[line]] = $7 / 1000
    if ($4 > most_size) most_size = $4
    if ($7 / 1000 > most_cost) most_cost = $7 / 1000
}
function across(n) { return left + n / most_size * (wide - left - right) }
function up(c) { return high - bottom - c / top_cost * (high - top - bottom) }
function text(x, y, anchor, words) { printf "<text x=\"%.1f\" y=\"%.1f\" text-anchor=\"%s\">%s</text>\n", x, y, anchor, words }
function rule(x1, y1, x2, y2, colour) { printf "<line x1=\"%.1f\" y1=\"%.1f\" x2=\"%.1f\" y2=\"%.1f\" stroke=\"%s\"/>\n", x1, y1, x2, y2, colour }
# A step of 1, 2 or 5 times a power of ten that parts the axis into about six.
function step_for(most,    s) {
    s = 1
    while (s * 6 < most) s *= s ~ /^2/ ? 2.5 : 2
    return s
}
END {
    colour["barkmottle, deciphered"] = "#0b6e4f"; colour["barkmottle, enciphered"] = "#1f5fbf"
    colour["the crate, deciphered"] = "#c2410c"; colour["the crate, enciphered"] = "#8a2be2"
    step = step_for(most_cost)
    top_cost = step * (int(most_cost / step) + 1)
    printf "<svg xmlns=\"http://www.w3.org/2000/svg\" viewBox=\"0 0 %d %d\" font-family=\"sans-serif\" font-size=\"13\" fill=\"#222\">\n", wide, high
    print "<title>Microseconds against blocks of a chain, key setup included</title>"
    printf "<rect width=\"%d\" height=\"%d\" fill=\"#fff\"/>\n", wide, high
    for (c = 0; c <= top_cost; c += step) {
        rule(left, up(c), wide - right, up(c), "#ddd")
        text(left - 8, up(c) + 4, "end", c)
    }
    for (n = 0; n <= most_size; n += 32) {
        rule(across(n), high - bottom, across(n), high - bottom + 5, "#222")
        text(across(n), high - bottom + 20, "middle", n)
    }
    rule(left, up(0), wide - right, up(0), "#222")
    rule(left, up(0), left, top, "#222")
    text((left + wide - right) / 2, high - 15, "middle", "blocks of the chain")
    text(left, top - 15, "start", "microseconds for one call, key setup included")
    # Labels stand at the lines' ends, from the lowest up, none over another.
    for (done = 0; done < lines; done++) {
        lowest = ""
        for (i = 1; i <= lines; i++)
            if (!(order[i] in labelled) && (lowest == "" || cost[order[i], points[order[i]]] < cost[lowest, points[lowest]])) lowest = order[i]
        labelled[lowest] = 1
        at = up(cost[lowest, points[lowest]]) + 4
        if (done > 0 && at > before - 16) at = before - 16
        before = at
        printf "<g stroke=\"%s\" fill=\"none\" stroke-width=\"2\"><polyline points=\"", colour[lowest]
        for (p = 1; p <= points[lowest]; p++) printf "%.1f,%.1f ", across(size[lowest, p]), up(cost[lowest, p])
        print "\"/>"
        for (p = 1; p <= points[lowest]; p++) printf "<circle cx=\"%.1f\" cy=\"%.1f\" r=\"2\"/>\n", across(size[lowest, p]), up(cost[lowest, p])
        print "</g>"
        printf "<text x=\"%.1f\" y=\"%.1f\" fill=\"%s\">%s</text>\n", wide - right + 10, at, colour[lowest], lowest
    }
    print "</svg>"
}
