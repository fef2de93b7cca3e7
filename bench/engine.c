/* Times the plain engine alone: whole books from empty, 512 offers to 64 bodies.
 *
 *     engine [SEED [MILLISECONDS]]
 *
 * One line for each family and profile: how often the book was built, nanoseconds for a book with the forests kept between
 * offers, nanoseconds for a book with all forests rooted afresh before each offer, and figures on the answers, among them a
 * checksum by which two engines can be seen to give the same answers (README.md says how it is reckoned).
 */
#include "families.h"

#include <stdio.h>
#include <stdlib.h>
#include <string.h>
#include <time.h>

/* processor time: what others do on the machine counts as little as it can */
static double now(void)
{
    struct timespec t;
    clock_gettime(CLOCK_PROCESS_CPUTIME_ID, &t);
    return t.tv_sec * 1e9 + t.tv_nsec;
}

static struct book book;
static struct offered edges[MOST_EDGES];
static volatile int sink;

static void build(int a, int b, int afresh)
{
    uint16_t circuit[MOST_KEPT];
    int sum = 0;
    plain_open(&book, a, b, MOST_BODIES);
    for (int i = 0; i < MOST_EDGES; i++) {
        if (afresh)
            plain_root(&book);
        sum += plain_offer(&book, edges[i].u, edges[i].v, edges[i].colour, circuit).number;
    }
    sink = sum;
}

/* The least of several rounds: other work on the machine only ever adds time. */
static double time_of(int a, int b, int afresh, double budget, int *repeats)
{
    const int rounds = 10;
    double start = now();
    int each = 0;
    do {
        build(a, b, afresh);
        each++;
    } while (now() - start < budget / rounds);
    double least = 0;
    for (int round = 0; round < rounds; round++) {
        start = now();
        for (int i = 0; i < each; i++)
            build(a, b, afresh);
        double took = (now() - start) / each;
        if (!round || took < least)
            least = took;
    }
    *repeats += each * (rounds + 1);
    return least;
}

/* kept edges, edges moved over all offers, numbers listed in all circuits */
struct figures {
    uint32_t sum;
    int kept, moved, listed;
};

static void feed(struct figures *figures, int x)
{
    figures->sum = figures->sum * 31u + (uint32_t)x;
}

static struct figures answers(int a, int b, int afresh)
{
    struct figures figures = {0, 0, 0, 0};
    uint16_t circuit[MOST_KEPT], asked[MOST_KEPT];
    plain_open(&book, a, b, MOST_BODIES);
    for (int i = 0; i < MOST_EDGES; i++) {
        if (afresh)
            plain_root(&book);
        struct answer question = plain_question(&book, edges[i].u, edges[i].v, edges[i].colour, asked);
        struct answer answer = plain_offer(&book, edges[i].u, edges[i].v, edges[i].colour, circuit);
        if (question.outcome != answer.outcome || question.number != answer.number ||
            (answer.outcome == IMPLIED && memcmp(asked, circuit, answer.number * sizeof *circuit))) {
            fprintf(stderr, "the question does not answer as the offer\n");
            exit(1);
        }
        feed(&figures, answer.outcome == KEPT ? 1 : 2);
        feed(&figures, answer.number);
        if (answer.outcome == KEPT)
            figures.moved += answer.number;
        else
            for (int j = 0; j < answer.number; j++) {
                feed(&figures, circuit[j]);
                figures.listed++;
            }
    }
    for (int i = 0; i < MOST_EDGES; i++)
        feed(&figures, book.forest[i]);
    figures.kept = book.kept;
    return figures;
}

int main(int count, char **arguments)
{
    static const int profiles[][2] = {{1, 2}, {3, 3}};
    uint32_t seed = count > 1 ? (uint32_t)strtoul(arguments[1], NULL, 10) : 1;
    double budget = (count > 2 ? atof(arguments[2]) : 500) * 1e6;
    printf("%-10s %-8s %8s %12s %12s %6s %6s %8s %10s\n", "family", "profile", "repeats", "ns", "afresh ns", "kept", "moved",
           "listed", "checksum");
    for (int family = 0; family < FAMILIES; family++)
        for (int p = 0; p < 2; p++) {
            int a = profiles[p][0], b = profiles[p][1], repeats = 0;
            family_make(family, seed, edges);
            struct figures figures = answers(a, b, 0), again = answers(a, b, 1);
            if (figures.sum != again.sum) {
                fprintf(stderr, "%s [%d,%d]: the two ways differ\n", family_names[family], a, b);
                return 1;
            }
            double kept = time_of(a, b, 0, budget, &repeats), afresh = time_of(a, b, 1, budget, &repeats);
            printf("%-10s [%d,%d]    %8d %12.0f %12.0f %6d %6d %8d %10u\n", family_names[family], a, b, repeats, kept, afresh,
                   figures.kept, figures.moved, figures.listed, figures.sum);
            fflush(stdout);
        }
    return 0;
}
