# The lines of view/table.awk with each row through `relay` in two (#113), where the halves stand as rows of their own. A row's line ends
# with the row of the table that it is or is half of, and its half: 1 to the relay, 2 from there, 0 where it is whole. Without a relay, or
# with one that is no element, all rows are whole; so are those of a board, which takes none.
$1 == "elements" { elements = $2 }
$1 == "rings" { rings = $2 }
$1 != "row" { print; next }

function steps(a, b) {
    return (b - a + elements) % elements
}

function put(first, second, half) {
    print "row", n++, $3, $4, first, second, $7, $8, $2, half
}

{
    on = rings == 1 && relay >= 1 && relay <= elements ? steps($5, relay) : 0
    if (0 < on && on < steps($5, $6)) {
        put($5, relay, 1)
        put(relay, $6, 2)
    } else put($5, $6, 0)
}
