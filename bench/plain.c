/* The engine of the plain baseline; plain.h says what it is. */
#include "plain.h"

#include <string.h>

enum { NO_EDGE = 0xffff, WORDS = MOST_EDGES / 64 };

static uint64_t bit(int i)
{
    return (uint64_t)1 << (i & 63);
}

static uint64_t all_bodies(const struct book *book)
{
    return ~(uint64_t)0 >> (64 - book->n);
}

static void exchange(int *x, int *y)
{
    int t = *x;
    *x = *y;
    *y = t;
}

/* ---- rooted forests */

/* makes v the root of its tree and hangs it below u by edge x */
static void hang(struct forest *f, int v, int u, int x)
{
    for (;;) {
        int up = f->up[v], above = f->above[v];
        f->up[v] = x;
        f->above[v] = u;
        if (up == NO_EDGE)
            return;
        x = up;
        u = v;
        v = above;
    }
}

/* sets the ways of these bodies, which have one above each; those of the other bodies above them are right */
static void set_ways(struct book *book, int i, uint64_t bodies)
{
    const struct forest *f = &book->rooted[i];
    uint8_t climbed[MOST_BODIES];
    while (bodies) {
        int v = __builtin_ctzll(bodies), steps = 0;
        do {
            climbed[steps++] = v;
            bodies ^= bit(v);
            v = f->above[v];
        } while (bodies & bit(v));
        for (uint64_t way = book->way[v][i]; steps;) {
            v = climbed[--steps];
            book->way[v][i] = way |= bit(v);
        }
    }
}

/* adds edge x to forest i, where its ends are in two trees. The smaller tree is hung below the other, so that few ways change */
static void join(struct book *book, int i, int x)
{
    struct forest *f = &book->rooted[i];
    int u = book->one[x], v = book->other[x], big = book->tree[u][i], small = book->tree[v][i];
    if (f->size[big] < f->size[small]) {
        exchange(&u, &v);
        exchange(&big, &small);
    }
    uint64_t moving = f->bodies[small];
    hang(f, v, u, x);
    set_ways(book, i, moving);
    f->bodies[big] |= moving;
    f->size[big] += f->size[small];
    for (; moving; moving &= moving - 1)
        book->tree[__builtin_ctzll(moving)][i] = big;
}

/* the bodies whose way in forest i goes over this one */
static uint64_t below(const struct book *book, int i, int low)
{
    uint64_t bodies = 0;
    for (int v = 0; v < book->n; v++)
        bodies |= (book->way[v][i] >> low & 1) << v;
    return bodies;
}

/* puts edge x in the place of edge y, which is on the path between the ends of x in forest i */
static void swap(struct book *book, int i, int x, int y)
{
    struct forest *f = &book->rooted[i];
    int u = book->one[x], v = book->other[x], low = book->one[y];
    if (f->up[low] != y)
        low = book->other[y];
    if (book->way[u][i] & bit(low))
        exchange(&u, &v);
    uint64_t moving = below(book, i, low);
    f->up[low] = NO_EDGE;
    hang(f, v, u, x);
    set_ways(book, i, moving);
}

/* ---- all forests rooted afresh */

/* the ends of edges at each body of a forest, in a list: 2x is the first end of edge x and 2x + 1 the other */
struct ends {
    uint16_t first[MOST_FORESTS][MOST_BODIES];
    uint16_t next[2 * MOST_EDGES];
};

static void gather(const struct book *book, struct ends *ends)
{
    memset(ends->first, 0xff, sizeof ends->first);
    for (int x = 0; x < book->edges; x++) {
        if (!book->forest[x])
            continue;
        uint16_t *first = ends->first[book->forest[x] - 1];
        int u = book->one[x], v = book->other[x];
        ends->next[2 * x] = first[u];
        first[u] = 2 * x;
        ends->next[2 * x + 1] = first[v];
        first[v] = 2 * x + 1;
    }
}

/* hangs below this root whatever is joined to it, nearest bodies first. Which bodies these are */
static uint64_t grow(struct book *book, int i, const struct ends *ends, int root)
{
    struct forest *f = &book->rooted[i];
    uint8_t found[MOST_BODIES];
    int tail = 1;
    uint64_t bodies = bit(root);
    found[0] = root;
    f->up[root] = NO_EDGE;
    book->way[root][i] = 0;
    for (int head = 0; head < tail; head++) {
        int v = found[head], up = f->up[v];
        uint64_t way = book->way[v][i];
        book->tree[v][i] = root;
        for (int end = ends->first[i][v]; end != NO_EDGE; end = ends->next[end]) {
            int x = end >> 1, w = end & 1 ? book->one[x] : book->other[x];
            if (x == up)
                continue;
            f->up[w] = x;
            f->above[w] = v;
            book->way[w][i] = way | bit(w);
            bodies |= bit(w);
            found[tail++] = w;
        }
    }
    f->bodies[root] = bodies;
    f->size[root] = tail;
    return bodies;
}

void plain_root(struct book *book)
{
    struct ends ends;
    gather(book, &ends);
    for (int i = 0; i < book->a + book->b; i++)
        for (uint64_t rest = all_bodies(book); rest;)
            rest &= ~grow(book, i, &ends, __builtin_ctzll(rest));
}

/* ---- search and shift, by the rule of request #105 */

struct search {
    uint16_t queue[MOST_KEPT + 1];    /* the edges reached, in the order in which they wait; first the new one */
    uint16_t from[MOST_KEPT + 1];     /* the place of the edge that reached them */
    uint64_t unreached[MOST_FORESTS]; /* a bit for each body whose edge up was not reached yet, and for roots */
    uint64_t reached[WORDS];          /* the edges reached but for the new one, one bit each */
    uint64_t marked[WORDS];           /* nothing, but while edges are being put in order */
    int tail;
    int place, forest; /* where the search ended: a place of the queue, and the forest in which its edge is free, from 1 */
};

/* the first forest, from 1, in which edge x may stand and its ends are not joined; 0 where there is none. A whole row of names is
 * compared at once, since mostly there is none */
static int free_forest(const struct book *book, int x)
{
    const uint8_t *one = book->tree[book->one[x]], *other = book->tree[book->other[x]];
    uint64_t names, others, permitted;
    memcpy(&names, one, ROW);
    memcpy(&others, other, ROW);
    memcpy(&permitted, book->permitted[book->colour[x]], ROW);
    if (!((names ^ others) & permitted))
        return 0;
    int i = 0;
    while (one[i] == other[i])
        i++;
    return i + 1;
}

static void wait_behind(struct search *s, int x, int head)
{
    s->from[s->tail] = head;
    s->queue[s->tail++] = x;
}

/* Lets the edges up from these bodies wait, smallest number first. Paths may be long: a bit for each edge puts them in order with
 * no edge being moved. */
static void wait_in_order(struct search *s, const uint16_t *up, uint64_t bodies, int head)
{
    unsigned words = 0;
    for (; bodies; bodies &= bodies - 1) {
        int x = up[__builtin_ctzll(bodies)];
        s->marked[x >> 6] |= bit(x);
        words |= 1u << (x >> 6);
    }
    for (; words; words &= words - 1) {
        int w = __builtin_ctz(words);
        s->reached[w] |= s->marked[w];
        for (uint64_t left = s->marked[w]; left; left &= left - 1)
            wait_behind(s, w * 64 + __builtin_ctzll(left), head);
        s->marked[w] = 0;
    }
}

/* reaches the edges up from these bodies */
static void reach(struct search *s, const uint16_t *up, uint64_t bodies, int head)
{
    if (bodies & (bodies - 1)) {
        wait_in_order(s, up, bodies, head);
        return;
    }
    int x = up[__builtin_ctzll(bodies)];
    s->reached[x >> 6] |= bit(x);
    wait_behind(s, x, head);
}

/* Whether the search ends with an edge that waits from place `first` on. The first edge of the queue that is free ends it when its turn
 * comes, whatever those before it would reach till then: so it ends here and now. */
static int free_waits(const struct book *book, struct search *s, int first)
{
    for (int place = first; place < s->tail; place++)
        if ((s->forest = free_forest(book, s->queue[place]))) {
            s->place = place;
            return 1;
        }
    return 0;
}

static void start(struct search *s, int x)
{
    s->queue[0] = x;
    s->tail = 1;
    memset(s->unreached, 0xff, sizeof s->unreached);
    memset(s->reached, 0, sizeof s->reached);
    memset(s->marked, 0, sizeof s->marked);
}

/* Whether a free edge was found for the edge that stands behind the last one of the book. An edge need not pass over its own forest:
 * the path there is the edge itself, which is reached. */
static int search(const struct book *book, struct search *s)
{
    start(s, book->edges);
    if (free_waits(book, s, 0))
        return 1;
    for (int head = 0; head < s->tail; head++) {
        int x = s->queue[head], limit = book->limit[x];
        const uint64_t *one = book->way[book->one[x]], *other = book->way[book->other[x]];
        for (int i = 0; i < limit; i++) {
            uint64_t fresh = (one[i] ^ other[i]) & s->unreached[i];
            if (!fresh)
                continue;
            int first = s->tail;
            s->unreached[i] ^= fresh;
            reach(s, book->rooted[i].up, fresh, head);
            if (free_waits(book, s, first))
                return 1;
        }
    }
    return 0;
}

/* each edge on the way takes the forest of the next one, the last one the forest found. How many moved, the new one apart */
static int shift(struct book *book, const struct search *s)
{
    uint16_t way[MOST_KEPT];
    int moved = 0;
    for (int place = s->place; place; place = s->from[place])
        way[moved++] = s->queue[place];
    int x = book->edges;
    for (int i = moved; i--;) {
        int y = way[i];
        swap(book, book->forest[y] - 1, x, y);
        book->forest[x] = book->forest[y];
        x = y;
    }
    join(book, s->forest - 1, x);
    book->forest[x] = s->forest;
    return moved;
}

static int list(const struct search *s, uint16_t *circuit)
{
    int length = 0;
    for (int w = 0; w < WORDS; w++)
        for (uint64_t left = s->reached[w]; left; left &= left - 1)
            circuit[length++] = w * 64 + __builtin_ctzll(left) + 1;
    return length;
}

/* ---- the calls */

int plain_open(struct book *book, int a, int b, int n)
{
    if (a < 1 || a > 3 || b < 1 || b > 3)
        return 1;
    if (n < 1 || n > MOST_BODIES)
        return 2;
    book->a = a;
    book->b = b;
    book->n = n;
    book->edges = book->kept = 0;
    memset(book->tree, 0, sizeof book->tree);
    memset(book->permitted, 0, sizeof book->permitted);
    memset(book->permitted[RED], 0xff, a);
    memset(book->permitted[BLACK], 0xff, a + b);
    plain_root(book);
    return 0;
}

/* 0, or the reason; the edge now stands behind the last one */
static int put(struct book *book, int u, int v, int colour)
{
    if (colour != RED && colour != BLACK)
        return 5;
    if (u < 1 || u > book->n || v < 1 || v > book->n)
        return 3;
    if (u == v)
        return 4;
    int x = book->edges;
    book->one[x] = u - 1;
    book->other[x] = v - 1;
    book->colour[x] = colour;
    book->limit[x] = colour == RED ? book->a : book->a + book->b;
    book->forest[x] = 0;
    return 0;
}

struct answer plain_offer(struct book *book, int u, int v, int colour, uint16_t *circuit)
{
    struct search s;
    int reason = put(book, u, v, colour);
    if (!reason && book->edges == MOST_EDGES)
        reason = 6;
    if (reason)
        return (struct answer){REFUSED, reason};
    struct answer answer;
    if (search(book, &s)) {
        answer = (struct answer){KEPT, shift(book, &s)};
        book->kept++;
    } else
        answer = (struct answer){IMPLIED, list(&s, circuit)};
    book->edges++;
    return answer;
}

struct answer plain_question(struct book *book, int u, int v, int colour, uint16_t *circuit)
{
    struct search s;
    int reason = put(book, u, v, colour);
    if (reason)
        return (struct answer){REFUSED, reason};
    if (!search(book, &s))
        return (struct answer){IMPLIED, list(&s, circuit)};
    int moved = 0;
    for (int place = s.place; place; place = s.from[place])
        moved++;
    return (struct answer){KEPT, moved};
}

int plain_freedom(const struct book *book)
{
    return (book->a + book->b) * (book->n - 1) - book->kept;
}

int plain_dropped(const struct book *book)
{
    return book->edges - book->kept;
}

enum verdict plain_verdict(const struct book *book)
{
    if (plain_freedom(book))
        return plain_dropped(book) ? OVER_LOOSE : LOOSE;
    return plain_dropped(book) ? OVER_TIGHT : TIGHT;
}

/* ---- groups */

/* names the parts into which a forest falls when only the edges of `left` stay: each body gets the topmost body of its part */
static void part(const struct forest *f, int n, const uint64_t *left, uint8_t *parts)
{
    uint64_t todo = n == 64 ? ~(uint64_t)0 : bit(n) - 1;
    uint8_t climbed[MOST_BODIES];
    while (todo) {
        int v = __builtin_ctzll(todo), steps = 0, name;
        for (;;) {
            climbed[steps++] = v;
            todo ^= bit(v);
            int x = f->up[v];
            if (x == NO_EDGE || !(left[x >> 6] & bit(x))) {
                name = v;
                break;
            }
            v = f->above[v];
            if (!(todo & bit(v))) {
                name = parts[v];
                break;
            }
        }
        while (steps)
            parts[climbed[--steps]] = name;
    }
}

/* Edges whose ends some forest does not join are taken away until none is left to take. Then every forest joins the ends of
 * every edge left, so that they all fall into the same parts, and these are the groups. */
void plain_groups(const struct book *book, uint8_t *groups)
{
    int k = book->a + book->b, n = book->n;
    uint64_t left[WORDS] = {0};
    uint8_t parts[MOST_FORESTS][MOST_BODIES];
    for (int x = 0; x < book->edges; x++)
        if (book->forest[x])
            left[x >> 6] |= bit(x);
    unsigned changed = (1u << k) - 1;
    while (changed) {
        for (int f = 0; f < k; f++)
            if (changed >> f & 1)
                part(&book->rooted[f], n, left, parts[f]);
        changed = 0;
        for (int w = 0; w < WORDS; w++)
            for (uint64_t some = left[w]; some; some &= some - 1) {
                int x = w * 64 + __builtin_ctzll(some), u = book->one[x], v = book->other[x];
                for (int f = 0; f < k; f++)
                    if (parts[f][u] != parts[f][v]) {
                        left[w] ^= bit(x);
                        changed |= 1u << (book->forest[x] - 1);
                        break;
                    }
            }
    }
    uint8_t lead[MOST_BODIES] = {0};
    for (int v = 0; v < n; v++) {
        int p = parts[0][v];
        if (!lead[p])
            lead[p] = v + 1;
        groups[v] = lead[p];
    }
}
