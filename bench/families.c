/* families.h says what this is. */
#include "families.h"

const char *const family_names[FAMILIES] = {"random", "chain", "grid", "black", "red", "parallels"};

static uint32_t state;

/* a number from 0 to count - 1, for count up to 65,536 */
static int pick(int count)
{
    state = state * 1664525u + 1013904223u;
    return (int)(state >> 16) % count;
}

static int pick_colour(void)
{
    return pick(2) ? BLACK : RED;
}

/* two different bodies */
static void pick_ends(struct offered *edge)
{
    edge->u = 1 + pick(MOST_BODIES);
    edge->v = 1 + pick(MOST_BODIES - 1);
    if (edge->v >= edge->u)
        edge->v++;
}

/* the edges of a grid of 8 by 8 bodies, row by row; from each body first the one to the right, then the one down */
static int grid(struct offered edges[112])
{
    int count = 0;
    for (int body = 1; body <= 64; body++) {
        if (body % 8)
            edges[count++] = (struct offered){body, body + 1, 0};
        if (body <= 56)
            edges[count++] = (struct offered){body, body + 8, 0};
    }
    return count;
}

void family_make(int family, uint32_t seed, struct offered edges[MOST_EDGES])
{
    struct offered cells[112];
    int count = grid(cells);
    state = seed;
    for (int i = 0; i < MOST_EDGES; i++) {
        struct offered *edge = &edges[i];
        switch (family) {
        case 0:
            pick_ends(edge);
            edge->colour = pick_colour();
            break;
        case 1:
            edge->u = 1 + i % 63;
            edge->v = edge->u + 1;
            edge->colour = pick_colour();
            break;
        case 2:
            *edge = cells[i % count];
            edge->colour = pick_colour();
            break;
        case 3:
            pick_ends(edge);
            edge->colour = BLACK;
            break;
        case 4:
            pick_ends(edge);
            edge->colour = RED;
            break;
        default:
            if (i % 8)
                *edge = edges[i - 1];
            else
                pick_ends(edge);
            edge->colour = pick_colour();
        }
    }
}
