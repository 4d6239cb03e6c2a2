# Why a table in text is refused, in its own words: reads the text; the refusal's number, line and column are in `number`, `line` and
# `column`. Prints a line of what was found and what would pass, then the line of the text with a mark under the column. To be run byte by
# byte (LC_ALL=C), as columns are counted so.
NR == 1 { marked = sub(/^\357\273\277/, "") }
{
    said = $0
    sub(/#.*/, "", said)
    gsub(/[ \t\r]+/, " ", said)
    gsub(/^ | $/, "", said)
}
said != "" && !headed { headed = NR; heading = said }
NR == line { text = $0; here = said }
END { print reason(number); if (number != 33) show() }

function reason(n,    f, k, word) {
    k = split(here, f, " ")
    split(heading, h, " ")
    word = substr(text, column)
    sub(/[ \t\r#].*/, "", word)
    if (n == 4) return "it says " f[2] + 0
    if (n == 5) return line > headed && here != "" ? "this row is one more than a table may have" : "it has a heading, and no row"
    if (n == 7 && f[3] + 0 == f[4] + 0) return "the row goes from " f[3] + 0 " to " f[4] + 0 ": both ends are the same element"
    if (n == 7) return "the row goes from " f[3] + 0 " to " f[4] + 0 ", and this ring has the elements 1 to " h[2] + 0
    if (n == 8) return "the row has a period of " slots(f[2])
    if (n == 9) return "the row costs " slots(f[1]) " of " f[2] + 0
    if (n == 26) return "the row has the direction " f[5] + 0 "; 0 is clockwise, 1 counterclockwise"
    if (n == 34) return "\"" word "\" is no number: digits alone make one"
    if (n == 35) return word " is too large for any number of a table"
    if (n == 36 && marked) return "the file begins with a byte order mark: save it as plain text without one"
    if (n == 36) return "the first line that is no comment is \"elements M\", or \"board M\" for two rings; M is the number of elements"
    if (n == 37 && line <= headed) return "after \"" f[1] "\" comes how many elements there are"
    if (n == 37 && h[1] == "board") return "a row of a board is cost, period, first, second and direction, and this one has " fields(k)
    if (n == 37) return "a row is cost, period, first and second, and a label where it has one; this one has " fields(k)
    if (n == 38 && line == headed) return "nothing comes after \"" f[1] " " f[2] "\""
    if (n == 38) return "a row has five numbers at most, and this one has " k ": \"" word "\" is one too many"
}

function slots(n) {
    return n + 0 " slot" (n + 0 == 1 ? "" : "s")
}

function fields(k) {
    return k == 1 ? "one" : "only " k
}

# The line with its blanks as spaces, and a mark.
function show() {
    sub(/\r$/, "", text)
    gsub(/[\t\r]/, " ", text)
    if (text == "" || length(text) > 100 || text ~ /[^ -~]/) return
    printf "    %s\n    %" column "s\n", text, "^"
}
