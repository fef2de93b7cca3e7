/* The plain baseline: the dependency step in C, with no proofs.
 *
 * Forests are rooted: every body knows the body above it, the edge that leads there, which bodies are on its way up and which
 * tree it is in. No more than 64 bodies means that a way is one word, and a path is what is in one of two ways and not in the
 * other. An edge that finds no place at once is placed by breadth-first exchange, by the rule of request #105, so that forests
 * and moved are fixed and may be compared.
 *
 * The calls count bodies and edges from 1, as document 01 does. The arrays count from 0, forests too.
 */
#ifndef PLAIN_H
#define PLAIN_H

#include <stdint.h>

enum { MOST_BODIES = 64, MOST_EDGES = 512, MOST_FORESTS = 6, MOST_KEPT = 378 };
enum { RED = 1, BLACK = 2 };

enum outcome { KEPT, IMPLIED, REFUSED };
enum verdict { TIGHT, LOOSE, OVER_TIGHT, OVER_LOOSE };

/* number: for kept how many earlier edges moved, for implied the length of the circuit, for refused the reason */
struct answer {
    enum outcome outcome;
    int number;
};

struct forest {
    uint64_t bodies[MOST_BODIES]; /* by tree: the bodies in it, one bit each */
    uint16_t up[MOST_BODIES];     /* by body: the edge to the body above, or NO_EDGE */
    uint8_t above[MOST_BODIES];   /* by body: the body above; anything at a root */
    uint8_t size[MOST_BODIES];    /* by tree: how many bodies are in it */
};

enum { ROW = 8 }; /* a place for each forest and two more, so that a row of names is one word */

struct book {
    int a, b, n;
    int edges, kept;
    /* one place more than a book holds: a question may be asked of a full book */
    uint8_t one[MOST_EDGES + 1], other[MOST_EDGES + 1];
    uint8_t colour[MOST_EDGES + 1];
    uint8_t limit[MOST_EDGES + 1];  /* the edge may stand in forests 1 to limit */
    uint8_t forest[MOST_EDGES + 1]; /* 0 where the edge is implied */
    struct forest rooted[MOST_FORESTS];
    /* by body, the forests side by side, since a search asks an edge about all of them */
    uint64_t way[MOST_BODIES][ROW]; /* the bodies on the way up, one bit each: itself too, the root not */
    uint8_t tree[MOST_BODIES][ROW]; /* a name of its tree, the same for all bodies of the tree */
    uint8_t permitted[BLACK + 1][ROW]; /* by colour: 255 in the places of the forests where such an edge may stand, else 0 */
};

/* 0, or the reason */
int plain_open(struct book *book, int a, int b, int n);

/* circuit has room for MOST_KEPT numbers. It is written only where the answer is IMPLIED: edge numbers, smallest first */
struct answer plain_offer(struct book *book, int u, int v, int colour, uint16_t *circuit);

/* as an offer would answer; the book stays as it is */
struct answer plain_question(struct book *book, int u, int v, int colour, uint16_t *circuit);

/* roots all forests afresh from the forest numbers of the edges */
void plain_root(struct book *book);

int plain_freedom(const struct book *book);
int plain_dropped(const struct book *book);
enum verdict plain_verdict(const struct book *book);

/* for each body in order the smallest body number of its rigid group */
void plain_groups(const struct book *book, uint8_t *groups);

#endif
