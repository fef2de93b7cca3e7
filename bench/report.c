/* The report program and, with the argument `certificate`, the certificate program of document 01, over the plain engine:
 * book text on standard input, lines on standard output. */
#include "plain.h"

#include <stdio.h>
#include <string.h>
#include <unistd.h>

enum { MOST_TEXT = 8192 };

/* ---- output: whole lines gather in a buffer */

static char out[1 << 16];
static int filled;

static void flush(void)
{
    int done = 0;
    while (done < filled) {
        ssize_t wrote = write(1, out + done, filled - done);
        if (wrote <= 0)
            _exit(1);
        done += wrote;
    }
    filled = 0;
}

/* 2048 bytes hold the longest line, and no text is longer than MOST_TEXT */
static void make_room(void)
{
    if (filled > (int)sizeof out - MOST_TEXT)
        flush();
}

static void word(const char *s)
{
    while (*s)
        out[filled++] = *s++;
}

static void number(int x)
{
    if (x >= 100)
        out[filled++] = '0' + x / 100;
    if (x >= 10)
        out[filled++] = '0' + x / 10 % 10;
    out[filled++] = '0' + x % 10;
}

static void line(const char *key, int x)
{
    make_room();
    word(key);
    number(x);
    out[filled++] = '\n';
}

/* Each edge number with a comma, and how many bytes that takes. A heavy book has 50,000 numbers in its circuits, so that they are
 * spelled once and copied, four bytes each whatever their length. */
static char spelled[MOST_EDGES + 1][4];
static uint8_t spelled_bytes[MOST_EDGES + 1];

static void spell(void)
{
    for (int x = 1; x <= MOST_EDGES; x++) {
        filled = 0;
        number(x);
        out[filled++] = ',';
        memcpy(spelled[x], out, 4);
        spelled_bytes[x] = filled;
    }
    filled = 0;
}

/* a circuit is never empty: the comma after its last number becomes the end of the line */
static void circuit_line(const uint16_t *circuit, int length)
{
    make_room();
    word("implied=");
    char *to = out + filled;
    for (int i = 0; i < length; i++) {
        memcpy(to, spelled[circuit[i]], 4);
        to += spelled_bytes[circuit[i]];
    }
    to[-1] = '\n';
    filled = to - out;
}

/* ---- input */

static char text[MOST_TEXT];
static const char *at, *end;

static int skip(const char *s)
{
    size_t length = strlen(s);
    if ((size_t)(end - at) < length || memcmp(at, s, length))
        return 0;
    at += length;
    return 1;
}

/* one to three digits with no leading zero but 0 itself; -1 where there is no such number */
static int digits(void)
{
    int x = 0, n = 0;
    while (at < end && *at >= '0' && *at <= '9') {
        if (n == 3 || (n && !x))
            return -1;
        x = 10 * x + (*at++ - '0');
        n++;
    }
    return n ? x : -1;
}

/* the number of a line `key` number; -1 where the line is not that */
static int field(const char *key)
{
    if (!skip(key))
        return -1;
    int x = digits();
    return skip("\n") ? x : -1;
}

struct edge {
    int u, v, colour;
};

static struct edge edges[MOST_EDGES];
static int a, b, bodies, number_of_edges;

/* 0, or the reason, with the number of the faulty line */
static int read_text(int *line_number)
{
    *line_number = 1;
    if ((a = field("a=")) < 0)
        return 9;
    if (a < 1 || a > 3)
        return 1;
    *line_number = 2;
    if ((b = field("b=")) < 0)
        return 9;
    if (b < 1 || b > 3)
        return 1;
    *line_number = 3;
    if ((bodies = field("bodies=")) < 0)
        return 9;
    if (bodies < 1 || bodies > MOST_BODIES)
        return 2;
    *line_number = 4;
    if ((number_of_edges = field("edges=")) < 0)
        return 9;
    if (number_of_edges > MOST_EDGES)
        return 6;
    for (int x = 0; x < number_of_edges; x++) {
        struct edge e;
        *line_number = 5 + x;
        if (skip("red="))
            e.colour = RED;
        else if (skip("black="))
            e.colour = BLACK;
        else
            return 9;
        if ((e.u = digits()) < 0 || !skip(",") || (e.v = digits()) < 0 || !skip("\n"))
            return 9;
        if (e.u < 1 || e.u > bodies || e.v < 1 || e.v > bodies)
            return 3;
        if (e.u == e.v)
            return 4;
        edges[x] = e;
    }
    *line_number = 5 + number_of_edges;
    return at == end ? 0 : 9;
}

/* ---- the two programs */

static struct book book;

static void report(void)
{
    static const char *const verdicts[] = {"tight", "loose", "over-tight", "over-loose"};
    uint16_t circuit[MOST_KEPT];
    uint8_t groups[MOST_BODIES];
    for (int x = 0; x < number_of_edges; x++) {
        struct answer answer = plain_offer(&book, edges[x].u, edges[x].v, edges[x].colour, circuit);
        if (answer.outcome == KEPT)
            line("kept=", plain_freedom(&book));
        else
            circuit_line(circuit, answer.number);
    }
    line("free=", plain_freedom(&book));
    line("dropped=", plain_dropped(&book));
    word("verdict=");
    word(verdicts[plain_verdict(&book)]);
    word("\ngroups=");
    plain_groups(&book, groups);
    for (int v = 0; v < bodies; v++) {
        if (v)
            word(",");
        number(groups[v]);
    }
    word("\n");
}

static void certificate(int length)
{
    /* a circuit holds kept edges only, so that all of them together have at most 256 * 256 numbers */
    static uint16_t circuits[MOST_EDGES * MOST_EDGES / 4 + MOST_KEPT];
    static int lengths[MOST_EDGES];
    uint16_t *next = circuits;
    for (int x = 0; x < number_of_edges; x++) {
        struct answer answer = plain_offer(&book, edges[x].u, edges[x].v, edges[x].colour, next);
        if (answer.outcome == IMPLIED)
            next += lengths[x] = answer.number;
    }
    memcpy(out, text, length);
    filled = length;
    next = circuits;
    for (int x = 0; x < number_of_edges; x++)
        if (book.forest[x])
            line("forest=", book.forest[x]);
        else {
            circuit_line(next, lengths[x]);
            next += lengths[x];
        }
}

int main(int count, char **arguments)
{
    int length = 0, line_number;
    while (length < MOST_TEXT) {
        ssize_t got = read(0, text + length, MOST_TEXT - length);
        if (got < 0)
            return 1;
        if (!got)
            break;
        length += got;
    }
    at = text;
    end = text + length;
    int reason = read_text(&line_number);
    if (reason) {
        word("refused=");
        number(reason);
        word(",");
        number(line_number);
        word("\n");
    } else {
        spell();
        plain_open(&book, a, b, bodies);
        if (count > 1 && !strcmp(arguments[1], "certificate"))
            certificate(length);
        else
            report();
    }
    flush();
    return 0;
}
