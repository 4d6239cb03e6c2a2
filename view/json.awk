# One object: verdict, values, sets and slots; a set and a slot are the numbers of their rows. With a relay also its number, and for each
# row of the table that it splits the numbers of the halves.
function list(word,    rows) {
    rows = rows_of(word)
    gsub(/ /, ", ", rows)
    return "[" rows "]"
}
END {
    printf "{\n  \"verdict\": {\"number\": %d, \"place\": %d", number, place
    gsub(/["\\]/, "\\\\&", words)
    if (number) printf ", \"words\": \"%s\"", words
    printf "}"
    if (!number && relay != "") {
        printf ",\n  \"relay\": %d, \"halves\": [", relay
        for (i = 0; i < rows; i++)
            if (half[i] == 1) printf "%s{\"row\": %d, \"to_relay\": %d, \"from_relay\": %d}", halves++ ? ", " : "", given[i], i, i + 1
        printf "]"
    }
    if (!number) {
        printf ",\n  \"cut\": %d, ", cut[0]
        if (rings > 1) printf "\"second_cut\": %d, ", cut[1]
        printf "\"interval\": %d, \"hyper\": %d, \"load\": %d,\n  \"sets\": [", interval, hyper, load
        for (k = 0; k < sets; k++) printf "%s%s", k ? ", " : "", list(set[k])
        printf "],\n  \"slots\": ["
        for (k = 0; k < hyper; k++) printf "%s\n    %s", k ? "," : "", list(slot[k])
        printf "\n  ]"
    }
    printf "\n}\n"
}
