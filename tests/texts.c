/* texts COUNT SEED FOLDER   writes COUNT random tables in text to FOLDER/0.txt, .., most of them with a fault, and to FOLDER/0.out, .. what
 * the program of texts is to write for each: worked out here by a second reader, which goes through the text byte by byte and shares nothing
 * with the first. Prints how many texts have each answer; fails where an answer never comes. */
#include <stdint.h>
#include <stdio.h>
#include <stdlib.h>
#include <string.h>

enum { most = 8192, rows_most = 70, last = 40 };

static uint64_t state;
static unsigned draw(unsigned below)
{
    state = state * 6364136223846793005u + 1442695040888963407u;
    return (unsigned)(state >> 33) % below;
}

/* ---- a text */

static char text[most];
static size_t size;

static void put(const char *s)
{
    size_t n = strlen(s);
    if (size + n < most) {
        memcpy(text + size, s, n);
        size += n;
    }
}

static void gap(void)
{
    static const char *const all[] = {" ", " ", " ", "  ", "\t", " \t ", "\r"};
    put(all[draw(7)]);
}

static void field(unsigned x)
{
    static const char *const odd[] = {"x", "-1", "1.5", "65536", "70000", "+1", "1e3", "99999999999999999999", "board", "\xe9"};
    char digits[32];
    if (draw(60) == 0) {
        put(odd[draw(10)]);
        return;
    }
    snprintf(digits, sizeof digits, "%s%u", draw(6) ? "" : "000", x);
    put(digits);
}

static void make_text(void)
{
    static const char *const empty[] = {"\n", "# words\n", " \t\n", "\r\n", " # 1 2\n"};
    unsigned elements = draw(8) ? 2 + draw(31) : draw(40);
    int board = draw(3) == 0;
    unsigned rows = draw(12) ? 1 + draw(5) : draw(2) * draw(67);
    size = 0;
    while (draw(3) == 0) put(empty[draw(5)]);
    put(draw(30) ? board ? "board" : "elements" : draw(2) ? "element" : "Board");
    gap();
    if (draw(40)) field(elements);
    if (draw(40) == 0) put(" 5");
    put(draw(3) ? "\n" : " # elements\r\n");
    for (unsigned i = 0; i < rows; i++) {
        unsigned period = draw(20) ? 1 + draw(200) : draw(3) * 2048 + draw(3);
        unsigned cost = draw(20) ? 1 + draw(period + 1) % (period ? period : 1) : draw(3) * period;
        unsigned first = draw(40) ? 1 + draw(elements + 1) % (elements ? elements : 1) : draw(300);
        unsigned second = draw(40) ? 1 + (first + draw(elements + 1)) % (elements ? elements : 1) : draw(300);
        unsigned fields = draw(30) ? board || draw(3) == 0 ? 5 : 4 : draw(7);
        unsigned fifth = board ? draw(20) ? draw(2) : draw(70000) : draw(65536);
        unsigned all[] = {cost, period, first, second, fifth, 9};
        if (draw(5) == 0) gap();
        for (unsigned k = 0; k < fields; k++) {
            field(all[k]);
            gap();
        }
        if (draw(4) == 0) put("# note");
        if (i + 1 < rows || draw(2)) put(draw(3) ? "\n" : "\r\n");
        if (draw(8) == 0) put(empty[draw(5)]);
    }
}

/* ---- a second reader: one pass, with the place where each field of the line at hand starts and ends */

static unsigned char out[most];
static size_t out_size;
static unsigned number;
static size_t starts[8], ends[8], line_end;
static unsigned fields;

static int refuse(unsigned n, size_t place)
{
    unsigned line = 1, column = 1;
    for (size_t k = 0; k < place && k < size; k++) {
        column++;
        if (text[k] == '\n') {
            line++;
            column = 1;
        }
    }
    number = n;
    out_size = (size_t)snprintf((char *)out, sizeof out, "text %u %u %u\n", n, line, column);
    return 0;
}

static int is_blank(char c) { return c == ' ' || c == '\t' || c == '\r'; }

/* The next line from *at on that has a field; of its fields the first seven. */
static int next_line(size_t *at)
{
    while (*at <= size) {
        size_t k = *at;
        int comment = 0;
        fields = 0;
        line_end = k;
        for (; k < size && text[k] != '\n'; k++) {
            if (text[k] == '#') comment = 1;
            if (comment) continue;
            line_end = k + 1;
            if (is_blank(text[k])) continue;
            if (k == *at || is_blank(text[k - 1])) {
                if (fields < 7) starts[fields] = k;
                fields++;
            }
            if (fields <= 7) ends[fields - 1] = k + 1;
        }
        *at = k + 1;
        if (fields) return 1;
    }
    return 0;
}

/* The number in field k, 0 where there is none; 65536 stands for all that are larger, 65537 for what is no number. */
static unsigned value(unsigned k)
{
    unsigned x = 0;
    if (k >= fields) return 0;
    for (size_t p = starts[k]; p < ends[k]; p++) {
        if (text[p] < '0' || text[p] > '9') return 65537;
        x = 10 * x + (unsigned)(text[p] - '0');
        if (x > 65535) x = 65536;
    }
    return x;
}

static size_t place(unsigned k) { return k < fields ? starts[k] : line_end; }

static int is_number(unsigned k)
{
    unsigned x = value(k);
    return x <= 65535 || refuse(x == 65537 ? 34 : 35, place(k));
}

static void byte(unsigned x) { out[out_size++] = (unsigned char)x; }

static int read_text(void)
{
    static unsigned all[rows_most][5];
    size_t at = 0;
    unsigned board, elements, rows = 0, labels = 0;
    number = 0;
    if (!next_line(&at)) return refuse(36, size);
    board = ends[0] - starts[0] == 5 && memcmp(text + starts[0], "board", 5) == 0;
    if (!board && !(ends[0] - starts[0] == 8 && memcmp(text + starts[0], "elements", 8) == 0)) return refuse(36, starts[0]);
    if (!is_number(1)) return 0;
    if (fields < 2) return refuse(37, line_end);
    if (fields > 2) return refuse(38, starts[2]);
    elements = value(1);
    if (elements < 2 || elements > 32) return refuse(4, starts[1]);
    for (; next_line(&at); rows++) {
        unsigned *row = all[rows];
        if (rows == 64) return refuse(5, starts[0]);
        for (unsigned k = 0; k < 5; k++) {
            if (!is_number(k)) return 0;
            row[k] = value(k);
        }
        if (fields < (board ? 5 : 4)) return refuse(37, line_end);
        if (fields > 5) return refuse(38, starts[5]);
        if (row[2] < 1 || row[2] > elements) return refuse(7, starts[2]);
        if (row[3] < 1 || row[3] > elements || row[2] == row[3]) return refuse(7, starts[3]);
        if (row[1] < 1 || row[1] > 4096) return refuse(8, starts[1]);
        if (row[0] < 1 || row[0] > row[1]) return refuse(9, starts[0]);
        if (board && row[4] > 1) return refuse(26, starts[4]);
        labels |= fields == 5;
    }
    if (rows == 0) return refuse(5, size);
    out_size = 0;
    byte('R');
    byte('B');
    byte(board ? '2' : 'T');
    byte(!board && labels ? 2 : 1);
    byte(0);
    byte(elements);
    byte(rows);
    for (unsigned i = 0; i < rows; i++) {
        byte(all[i][0] % 256);
        byte(all[i][0] / 256);
        byte(all[i][1] % 256);
        byte(all[i][1] / 256);
        byte(all[i][2]);
        byte(all[i][3]);
        if (board || labels) byte(all[i][4] % 256);
        if (!board && labels) byte(all[i][4] / 256);
    }
    return 1;
}

static void save(const char *folder, unsigned i, const char *kind, const void *bytes, size_t n)
{
    char name[4096];
    FILE *f;
    snprintf(name, sizeof name, "%s/%u.%s", folder, i, kind);
    f = fopen(name, "wb");
    if (!f || fwrite(bytes, 1, n, f) != n || fclose(f)) {
        perror(name);
        exit(2);
    }
}

int main(int argc, char **argv)
{
    static const unsigned wanted[] = {0, 4, 5, 7, 8, 9, 26, 34, 35, 36, 37, 38};
    unsigned seen[last] = {0}, boards = 0, labelled = 0, bad = 0;
    if (argc != 4) return 2;
    state = strtoul(argv[2], 0, 10);
    for (unsigned i = 0; i < strtoul(argv[1], 0, 10); i++) {
        make_text();
        if (read_text()) {
            boards += out[2] == '2';
            labelled += out[3] == 2;
        }
        seen[number]++;
        save(argv[3], i, "txt", text, size);
        save(argv[3], i, "out", out, out_size);
    }
    for (unsigned k = 0; k < sizeof wanted / sizeof *wanted; k++) {
        printf("%u: %u%s", wanted[k], seen[wanted[k]], k + 1 < sizeof wanted / sizeof *wanted ? ", " : "\n");
        bad |= seen[wanted[k]] == 0;
    }
    printf("boards %u, with labels %u\n", boards, labelled);
    return bad || !boards || !labelled;
}
