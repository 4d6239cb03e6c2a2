# A table file in lines, from its bytes in decimal (od -An -v -tu1): how many bytes it has, the first seven, the elements, the rings, and the
# rows as far as they are there. A row has seven bytes on a board of two rings, the last its direction; else eight in version 2, the last two
# its label, and six in version 1. Where there is no label, or no direction, it is 0.
{ for (k = 1; k <= NF; k++) byte[n++] = $k }
END {
    print "bytes", n + 0
    if (n < 7) exit
    print "head", byte[0], byte[1], byte[2], byte[3], byte[4], byte[5], byte[6]
    print "elements", byte[5]
    rings = byte[2] == 50 ? 2 : 1
    print "rings", rings
    size = rings == 2 ? 7 : byte[3] == 2 && byte[4] == 0 ? 8 : 6
    for (i = 0; i < byte[6] && 7 + size * (i + 1) <= n; i++) {
        at = 7 + size * i
        label = size == 8 ? byte[at + 6] + 256 * byte[at + 7] : 0
        way = size == 7 ? byte[at + 6] : 0
        print "row", i, byte[at] + 256 * byte[at + 1], byte[at + 2] + 256 * byte[at + 3], byte[at + 4], byte[at + 5], label, way
    }
}
