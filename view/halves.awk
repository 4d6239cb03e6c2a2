# Which rows of the table a relay splits, and what numbers the halves have.
END {
    for (i = 0; i < rows; i++)
        if (half[i] == 1) print "plan: row " given[i] " is split into row " i ", to the relay, and row " i + 1 ", from there"
}
