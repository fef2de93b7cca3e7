/* Writes the books of the benchmark as book text, a file for each family and profile, into the folder given.
 *
 *     books FOLDER [SEED]
 */
#include "families.h"

#include <stdio.h>
#include <stdlib.h>

int main(int count, char **arguments)
{
    static const int profiles[][2] = {{1, 2}, {3, 3}};
    if (count < 2) {
        fprintf(stderr, "books FOLDER [SEED]\n");
        return 2;
    }
    uint32_t seed = count > 2 ? (uint32_t)strtoul(arguments[2], NULL, 10) : 1;
    for (int family = 0; family < FAMILIES; family++)
        for (int p = 0; p < 2; p++) {
            struct offered edges[MOST_EDGES];
            char name[4096];
            int a = profiles[p][0], b = profiles[p][1];
            snprintf(name, sizeof name, "%s/%s-%d%d.book", arguments[1], family_names[family], a, b);
            FILE *file = fopen(name, "w");
            if (!file) {
                perror(name);
                return 1;
            }
            family_make(family, seed, edges);
            fprintf(file, "a=%d\nb=%d\nbodies=%d\nedges=%d\n", a, b, MOST_BODIES, MOST_EDGES);
            for (int i = 0; i < MOST_EDGES; i++)
                fprintf(file, "%s=%d,%d\n", edges[i].colour == RED ? "red" : "black", edges[i].u, edges[i].v);
            if (fclose(file)) {
                perror(name);
                return 1;
            }
        }
    return 0;
}
