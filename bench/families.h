/* The books of the benchmark: 64 bodies and 512 edges, by family and seed. README.md says how each is made, so that a
 * program in another language can make the very same edges. */
#ifndef FAMILIES_H
#define FAMILIES_H

#include "plain.h"

enum { FAMILIES = 6 };

extern const char *const family_names[FAMILIES];

struct offered {
    int u, v, colour;
};

void family_make(int family, uint32_t seed, struct offered edges[MOST_EDGES]);

#endif
