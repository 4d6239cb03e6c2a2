# The plan for a terminal: a line for each segment of each ring, a sign for each slot. A row's sign is its number, then letters; a free segment is a dot.
# Above the lines stand slot numbers; below, a mark where an interval ends.
END {
    signs = "0123456789abcdefghijklmnopqrstuvwxyzABCDEFGHIJKLMNOPQRSTUVWXYZ+*"
    wide = 96
    for (from = 0; from < hyper; from += wide) {
        to = from + wide < hyper ? from + wide : hyper
        for (l = 0; l < lanes_of(); l++) for (s = from; s < to; s++) at[l, s] = "."
        ends = ""
        for (s = from; s < to; s++) {
            n = split(rows_of(slot[s]), here, " ")
            for (k = 1; k <= n; k++) {
                i = here[k]
                a = lane(i)
                for (l = a; l < a + steps(i); l++) at[l, s] = substr(signs, i + 1, 1)
            }
            ends = ends (interval_end(s + 1) ? "|" : " ")
        }
        ruler = ""
        for (s = from; s < to; s += 8) ruler = ruler sprintf("%-8d", s)
        sub(/ +$/, "", ruler)
        sub(/ +$/, "", ends)
        if (from) print ""
        printf "%8s  %s\n", "slot", ruler
        for (l = 0; l < lanes_of(); l++) {
            line = ""
            for (t = from; t < to; t++) line = line at[l, t]
            printf "%8s  %s\n", lane_from(l) "-" lane_to(l), line
        }
        printf "%8s  %s\n", "ends", ends
    }
    print ""
    for (i = 0; i < rows; i++)
        printf "%s  row %d: %d of %d slots, from %d to %d%s%s\n", substr(signs, i + 1, 1), i, cost[i], period[i], first[i], second[i], \
            direction(i), as_given(i)
}
