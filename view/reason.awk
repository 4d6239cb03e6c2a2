# Why a table is refused, in its own numbers: what was found, what would pass. Reads the file's size, its first bytes and its rows as far as
# they are there, and then the verdict line; beside 13 also the lines of the program that raises light rows, beside 14 a line `member` for
# each row of the set. Limits of the two parties, where there are some, are in `ours` and `theirs`, a relay is in `relay`.
$1 == "bytes" { bytes = $2 }
$1 == "raise" { least[$2] = $4 }
$1 == "member" { member[members++] = $2 }
$1 == "head" { head = $2 " " $3 " " $4; version = $5 + 256 * $6; said = $8 }

function ends_of(i) {
    return "row " i " goes from " first[i] " to " second[i] (rings > 1 ? (way[i] ? " counterclockwise" : " clockwise") : "")
}

# A board's file, by its mark: where one ring alone is taken it is refused with 2.
function is_board() {
    return head == "82 66 50"
}

function plural(n, one) {
    return n " " one (n == 1 ? "" : "s")
}

function gcd(a, b,    r) {
    while (b) { r = a % b; a = b; b = r }
    return a
}

# The shortest interval: the least greatest common divisor of any two periods.
function shortest(    i, j, d, l) {
    l = period[0]
    for (i = 0; i < rows; i++)
        for (j = 0; j < i; j++) if ((d = gcd(period[i], period[j])) < l) l = d
    return l
}

function through(i, e,    d) {
    d = between(way[i], first[i], e)
    return 0 < d && d < steps(i)
}

function on_ends(i,    ends) {
    ends = "row " i " goes from " first[i] " to " second[i]
    if (first[i] == second[i]) return ends ": both ends are the same element"
    return ends ", and this ring has the elements 1 to " elements
}

# The earlier row that row i repeats.
function on_pasted(i,    j) {
    for (j = 0; j < i; j++)
        if (first[j] == first[i] && second[j] == second[i] && period[j] == period[i] && way[j] == way[i])
            return ends_of(i) " with a period of " period[i] " slots, and so does row " j ": take one out, or give its cost to the other"
}

# The elements that, as a relay, split the fewest rows, where `parted` has how many rows each splits.
function on_relay(parted,    e, few, list) {
    few = rows
    for (e = 1; e <= elements; e++) if (parted[e] < few) few = parted[e]
    for (e = 1; e <= elements; e++) if (parted[e] == few) list = list (list == "" ? "" : ", ") e
    return "\na relay may help, which splits the rows through it: ./plan --relay E TABLE; element" \
        (list ~ /,/ ? "s " list " split" : " " list " splits") " the fewest, " few
}

# The rows of ring d that go through each element. A relay is for one ring alone.
function on_cut(d,    e, i, line, lines, ring, parted) {
    for (e = 1; e <= elements; e++) {
        line = ""
        parted[e] = 0
        for (i = 0; i < rows; i++)
            if (way[i] == d && through(i, e)) {
                line = line (line == "" ? "" : ", ") i
                parted[e]++
            }
        lines = lines "\nthrough element " e ": row" (line ~ /,/ ? "s " : " ") line
    }
    if (rings < 2) return "a table needs an element that no row goes through, between its ends" lines on_relay(parted)
    ring = d ? "counterclockwise" : "clockwise"
    return "the " ring " ring needs an element that none of its rows goes through, between its ends" lines
}

# The first periods that are too many.
function on_hyper(    i, h, list) {
    h = 1
    for (i = 0; i < rows && h <= 4096; i++) {
        if (h % period[i] == 0) continue
        h = h / gcd(h, period[i]) * period[i]
        list = list (list == "" ? "" : ", ") period[i] " (row " i ")"
    }
    return "the periods " list " have the least common multiple " h "; at most 4096 passes"
}

# Each light row, and the tool that raises them; it takes one ring alone and no relay, so that else the least cost is worked out here.
function on_light(    i, l, lines, alone) {
    l = shortest()
    alone = rings > 1 || relay != ""
    for (i = 0; i < rows; i++) if (alone && cost[i] * l < period[i]) least[i] = int((period[i] + l - 1) / l)
    for (i = 0; i < rows; i++)
        if (i in least)
            lines = lines "row " i as_given(i) (as_given(i) == "" ? "" : ",") " costs " plural(cost[i], "slot") " of " period[i] \
                "; with a shortest interval of " plural(l, "slot") \
                " the least that passes is " least[i] "\n"
    if (alone) return substr(lines, 1, length(lines) - 1)
    return lines "./raise TABLE OUT writes the table with " (lines ~ /\n./ ? "these costs" : "this cost")
}

# With a relay: the rows of set k and the segments that all of them use. The line begins at the lowest element that no row goes through;
# there is a set where a row ends that no row ended before since some row of it began.
function on_set(k,    c, i, e, end, n, list, from, to, s, segments) {
    for (c = 1; c <= elements; c++) {
        for (i = 0; i < rows; i++) if (through(i, c)) break
        if (i == rows) break
    }
    for (e = 1; e <= elements; e++) {
        for (i = 0; i < rows; i++) if (between(0, c, first[i]) + steps(i) == e) break
        if (i == rows) continue
        for (i = 0; i < rows; i++) if (end <= between(0, c, first[i]) && between(0, c, first[i]) < e) break
        if (i < rows && n++ == k) break
        end = e
    }
    to = elements
    for (i = 0; i < rows; i++) {
        s = between(0, c, first[i])
        if (s >= e || s + steps(i) < e) continue
        list = list (list == "" ? "" : " ") i
        member[members++] = i
        if (s > from) from = s
        if (s + steps(i) < to) to = s + steps(i)
    }
    for (s = from; s < to; s++) segments = segments (segments == "" ? "" : " ") further(0, c, s)
    return "rows of that set, as split: " list "; all use segment" (segments ~ / / ? "s " : " ") segments
}

function fraction(over, under,    d) {
    d = gcd(over, under)
    return over / d "/" under / d
}

# What the rows of a set ask for, beside the bound: 1 where all periods are equal, else (L - 1) / L. Then the row that would pass with the
# least less of the bus, if one alone can: a row keeps a slot, and isn't light.
function on_over(    i, k, h, l, same, over, most, few, less, best) {
    h = 1
    same = 1
    for (i = 0; i < rows; i++) {
        h = h / gcd(h, period[i]) * period[i]
        if (period[i] != period[0]) same = 0
    }
    for (k = 0; k < members; k++) over += h / period[member[k]] * cost[member[k]]
    l = same ? h : shortest()
    most = same ? h : h / l * (l - 1)
    best = -1
    for (k = 0; k < members; k++) {
        i = member[k]
        less = int((over - most + h / period[i] - 1) / (h / period[i]))
        few = same ? 1 : int((period[i] + l - 1) / l)
        if (cost[i] - less < few) continue
        if (best < 0 || less / period[i] < gives / period[best]) { best = i; gives = less }
    }
    return "they ask for " fraction(over, h) " of it (" int((1000 * over + h - 1) / h) " thousandths, rounded up); the bound is " \
        fraction(most, h) " (" int(1000 * most / h) ", rounded down), so it is " fraction(over - most, h) " too much\n" \
        (best < 0 ? "no row of it alone can make up for that" : \
        "with " plural(gives, "slot") " less in row " best ", " cost[best] - gives " of " period[best] ", it would pass")
}

# What a party's rows ask for of segment s, as a fraction in lowest terms, beside its limit; its sum is over its own periods.
function on_limit(whose, second_maker, limit, s,    i, under, over, list, asks) {
    under = 1
    for (i = 0; i < rows; i++)
        if ((label[i] >= 32768) == second_maker) under = under / gcd(under, period[i]) * period[i]
    for (i = 0; i < rows; i++) {
        if ((label[i] >= 32768) != second_maker || (s - first[i] + elements) % elements >= steps(i)) continue
        over += under / period[i] * cost[i]
        list = list (list == "" ? "" : ", ") i
    }
    asks = list ~ /,/ ? " rows " list " ask for " : " row " list " asks for "
    return "on segment " s " " whose asks fraction(over, under) "; " whose " limit is " limit "/1000"
}

function reason(n, i) {
    if (n == 1) return "the file has " plural(bytes, "byte")
    if (n == 2 && is_board()) return "it is of a board with two rings, and one ring alone is taken here"
    if (n == 2) return "its first bytes are " head "; a table's are 82 66 84, and a board's are 82 66 50"
    if (n == 3) return "its version is " version "; " (is_board() ? "a board's is 1" : "a table's is 1 or 2")
    if (n == 4) return "it says " elements
    if (n == 5) return "it says " said
    if (n == 6) return "it has " bytes " bytes; with " plural(said, "row") " that is " (7 + (is_board() ? 7 : version == 2 ? 8 : 6) * said)
    if (n == 7) return on_ends(i)
    if (n == 8) return "row " i " has a period of " plural(period[i], "slot")
    if (n == 9) return "row " i " costs " plural(cost[i], "slot") " of " period[i]
    if (n == 10) return on_cut(i)
    if (n == 11) return on_hyper()
    if (n == 13) return on_light()
    if (n == 14 && relay != "") return on_set(i) "\n" on_over()
    if (n == 14 && members) return on_over()
    if (n == 18) return on_pasted(i)
    if (n == 21) return on_limit("our", 0, ours, i)
    if (n == 22) return on_limit("the second maker's", 1, theirs, i)
    if (n == 26) return "row " i " has the direction " way[i] "; 0 is clockwise, 1 counterclockwise"
    if (n == 23) return "our limit is " ours ", the second maker's is " theirs
    if (n == 27) return "the relay is " relay ", and this ring has the elements 1 to " elements
    if (n == 28) return "it has " given[rows - 1] + 1 " rows, and " rows " with those split that go through element " relay
}

END {
    line = reason(number, place)
    if (line != "") print line
}
