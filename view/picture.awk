# The plan as a picture (SVG): a lane for each segment of each ring, time to the right, a colour for each row; the lanes of a board's
# second ring are a group of their own. A dashed line stands where an interval ends. Below, each row has a strip with the slots that it is
# given, and a tick at the end of each job, its deadline. A long plan goes on in the next band.
function hex(v) {
    return sprintf("%02x", int(v * 255 + 0.5))
}

# A hue's share of one colour, hue in sixths of the circle.
function part(hue, low, high) {
    while (hue < 0) hue += 6
    while (hue >= 6) hue -= 6
    if (hue < 1) return low + (high - low) * hue
    if (hue < 3) return high
    if (hue < 4) return low + (high - low) * (4 - hue)
    return low
}

# Neighbouring rows get hues far apart.
function colour(i,    hue, light, reach) {
    hue = (i * 0.381966 - int(i * 0.381966)) * 6
    light = i % 3 == 0 ? 0.62 : i % 3 == 1 ? 0.72 : 0.52
    reach = 0.6 * (light < 0.5 ? light : 1 - light)
    return "#" hex(part(hue + 2, light - reach, light + reach)) hex(part(hue, light - reach, light + reach)) \
        hex(part(hue - 2, light - reach, light + reach))
}

function about(i) {
    return "row " i ": " cost[i] " of " period[i] " slots, " first[i] " to " second[i] direction(i) as_given(i)
}

function x_of(s) {
    return left + (s - start) * wide
}

# Where lane l begins; a route has its lanes on one ring.
function lane_top(l) {
    return above + l * tall + int(l / elements) * apart
}

# Row i from slot a up to slot b, within one band.
function move(i, a, b,    top, high) {
    top = lane_top(lane(i))
    high = steps(i) * tall - 1
    printf "<rect class=\"move\" data-row=\"%d\" data-from=\"%d\" data-until=\"%d\" data-lane=\"%d\" data-lanes=\"%d\" ", \
        i, a, b, lane(i), steps(i)
    printf "x=\"%g\" y=\"%g\" width=\"%g\" height=\"%g\" fill=\"%s\">", x_of(a) + 0.5, top, (b - a) * wide - 1, high, colour(i)
    printf "<title>%s; slots %d to %d</title></rect>\n", about(i), a, b - 1
    if ((b - a) * wide >= 14)
        printf "<text class=\"%s\" x=\"%g\" y=\"%g\">%d</text>\n", i % 3 == 2 ? "on pale" : "on", (x_of(a) + x_of(b)) / 2, \
            top + high / 2 + 4, i
    printf "<rect x=\"%g\" y=\"%g\" width=\"%g\" height=\"%g\" fill=\"%s\"/>\n", x_of(a), below + i * strip + 1, (b - a) * wide, strip - 3, \
        colour(i)
}

# Where the band that starts at slot s ends: with an interval, if one ends within it.
function band_end(s,    e) {
    if (s + band >= hyper) return hyper
    for (e = s + band; e > s; e--) if (interval_end(e)) return e
    return s + band
}

function lanes(    l, i) {
    for (l = 0; l < lanes_of(); l++) {
        printf "<rect x=\"%g\" y=\"%g\" width=\"%g\" height=\"%g\" fill=\"%s\"/>\n", left, lane_top(l), (stop - start) * wide, tall - 1, \
            l % elements % 2 ? "#f4f4f1" : "#ecece8"
        printf "<text class=\"name\" x=\"%g\" y=\"%g\">%d → %d</text>\n", left - 8, lane_top(l) + tall / 2 + 4, lane_from(l), lane_to(l)
        if (rings > 1 && l % elements == 0)
            printf "<text class=\"ring\" x=\"%g\" y=\"%g\">%s</text>\n", left - 8, lane_top(l) - 5, l ? "counterclockwise" : "clockwise"
    }
    for (i = 0; i < rows; i++)
        printf "<text class=\"small\" x=\"%g\" y=\"%g\">row %d</text>\n", left - 8, below + i * strip + strip - 2, i
}

# Slot numbers, ends of intervals, deadlines.
function marks(    s, i, every) {
    every = wide >= 24 ? 1 : wide >= 6 ? 8 : 32
    for (s = start; s <= stop; s++) {
        if (s % every == 0 && s < stop) printf "<text class=\"slot\" x=\"%g\" y=\"%g\">%d</text>\n", x_of(s) + 1, above - 5, s
        if (s > start && interval_end(s))
            printf "<line class=\"end\" x1=\"%g\" y1=\"%g\" x2=\"%g\" y2=\"%g\"/>\n", x_of(s), above - 3, x_of(s), below + rows * strip
        for (i = 0; i < rows; i++)
            if (s > start && s % period[i] == 0)
                printf "<line class=\"due\" x1=\"%g\" y1=\"%g\" x2=\"%g\" y2=\"%g\"/>\n", x_of(s), below + i * strip, x_of(s), \
                    below + (i + 1) * strip - 1
    }
}

function moves(    s, n, k, i, here, on, now) {
    for (s = start; s <= stop; s++) {
        split("", now)
        n = s < stop ? split(rows_of(slot[s]), here, " ") : 0
        for (k = 1; k <= n; k++) now[here[k]] = 1
        for (i = 0; i < rows; i++) {
            if (i in now && !(i in on)) on[i] = s
            if (i in on && !(i in now)) {
                move(i, on[i], s)
                delete on[i]
            }
        }
    }
}

END {
    left = rings > 1 ? 104 : 84
    tall = 22
    strip = 9
    wide = int(1120 / hyper)
    wide = wide > 40 ? 40 : wide < 4 ? 4 : wide
    band = int(1120 / wide)
    gap = 34
    apart = rings > 1 ? 20 : 0
    high = lanes_of() * tall + apart + 10 + rows * strip
    bands = 0
    for (start = 0; start < hyper; start = band_end(start)) bands++
    width = left + (hyper < band ? hyper : band) * wide + 20
    if (width < 420) width = 420
    head = 58
    total = head + bands * (high + gap)
    printf "<svg xmlns=\"http://www.w3.org/2000/svg\" width=\"%d\" height=\"%d\" viewBox=\"0 0 %d %d\">\n", width, total, width, total
    print "<style>text{font-family:Helvetica,Arial,sans-serif;font-size:12px;fill:#222}.name,.small{text-anchor:end}" \
        (rings > 1 ? ".ring{text-anchor:end;font-size:9px;fill:#666}" : "") ".small{font-size:8px;fill:#666}" \
        ".slot{font-size:9px;fill:#666}.on{text-anchor:middle}.pale{fill:#fff}.head{font-size:16px;font-weight:bold}" \
        ".end{stroke:#444;stroke-width:1;stroke-dasharray:4 3}.due{stroke:#222;stroke-width:2}</style>"
    printf "<rect width=\"%d\" height=\"%d\" fill=\"#ffffff\"/>\n", width, total
    printf "<text class=\"head\" x=\"16\" y=\"24\">%s</text>\n", name
    printf "<text x=\"16\" y=\"42\">%d elements, %s%d rows; %d slots, repeated for ever</text>\n", elements, \
        (rings > 1 ? "two rings, " : ""), rows, hyper
    above = head + gap / 2
    for (start = 0; start < hyper; start = stop) {
        stop = band_end(start)
        below = above + lanes_of() * tall + apart + 8
        lanes()
        moves()
        marks()
        above += high + gap
    }
    print "</svg>"
}
