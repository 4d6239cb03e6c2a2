# Shared by the views. They read, on one stream, the lines of view/table.awk, with rows split at a relay where there is one
# (view/split.awk), and those of the program:
#   bytes, head, elements M, rings R, row I COST PERIOD FIRST SECOND LABEL WAY GIVEN HALF ..
#   verdict, and of an admitted table cut for each ring, interval, hyper, load, set .., slot ..

# The rows of a word, ascending, as numbers with spaces between. A word has 64 bits and stands in decimal: awk's own numbers would round it,
# so it is divided by 2^16 as decimal parts of six digits.
function rows_of(word,    part, n, k, digit, rest, bit, rows) {
    if (word in known) return known[word]
    n = 0
    rest = word
    while (length(rest) > 6) {
        part[n++] = substr(rest, length(rest) - 5) + 0
        rest = substr(rest, 1, length(rest) - 6)
    }
    part[n++] = rest + 0
    rows = ""
    for (digit = 0; digit < 4; digit++) {
        rest = 0
        for (k = n - 1; k >= 0; k--) {
            rest = rest * 1000000 + part[k]
            part[k] = int(rest / 65536)
            rest -= part[k] * 65536
        }
        for (bit = 0; bit < 16; bit++) {
            if (rest % 2) rows = rows (rows == "" ? "" : " ") (16 * digit + bit)
            rest = int(rest / 2)
        }
    }
    known[word] = rows
    return rows
}

$1 == "elements" { elements = $2 }
$1 == "rings" { rings = $2 }
$1 == "row" {
    rows = $2 + 1
    cost[$2] = $3
    period[$2] = $4
    first[$2] = $5
    second[$2] = $6
    label[$2] = $7
    way[$2] = $8
    given[$2] = $9
    half[$2] = $10
}
$1 == "verdict" { number = $2; place = $3 }
$1 == "cut" { cut[cuts++] = $2 }
$1 == "interval" { interval = $2 }
$1 == "hyper" { hyper = $2 }
$1 == "load" { load = $2 }
$1 == "set" { set[sets++] = $2 }
$1 == "slot" { slot[$2] = $3 }

# How many segments lie from element a to element b on ring d.
function between(d, a, b) {
    return ((d ? a - b : b - a) + elements) % elements
}

# How many segments a row's route has.
function steps(i) {
    return between(way[i], first[i], second[i])
}

# A lane for each segment of each ring. A ring's lanes stand in its order from its cut on, so that no route is parted.
function lanes_of() {
    return rings * elements
}

# The first lane of a row's route.
function lane(i) {
    return way[i] * elements + between(way[i], cut[way[i]], first[i])
}

# The element that is k segments on from element e on ring d.
function further(d, e, k) {
    return ((d ? e - k : e + k) - 1 + 2 * elements) % elements + 1
}

# The elements that a lane leads from and to.
function lane_from(l,    d) {
    d = int(l / elements)
    return further(d, cut[d], l % elements)
}

function lane_to(l) {
    return further(int(l / elements), lane_from(l), 1)
}

# The way that a row runs, where there are two.
function direction(i) {
    return rings < 2 ? "" : way[i] ? ", counterclockwise" : ", clockwise"
}

# The row of the table that a row is half of, or that it is under another number, where a relay splits rows.
function as_given(i) {
    if (half[i]) return ", row " given[i] " of the table " (half[i] == 1 ? "to" : "from") " the relay"
    return given[i] == i ? "" : ", row " given[i] " of the table"
}

# Whether an interval ends at slot s: it is a multiple of some row's period.
function interval_end(s,    i) {
    for (i = 0; i < rows; i++) if (s % period[i] == 0) return 1
    return 0
}
