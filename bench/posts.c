/* What a post costs: posts ROWS [bad]. A board of 1,048,576 vertices in rings of so many, 1,000 at most; each post claims one for Even.
 * With a second word the first vertex of each ring has an odd priority, below the others, so that closed walks are looked at. */
#include "pgboard.h"
#include <stdio.h>
#include <stdlib.h>
#include <time.h>

#define N 1048576u

static uint8_t owners[N];
static uint32_t priorities[N], starts[N + 1], targets[N], vertices[1000], choices[1000];

static double now(void)
{
    struct timespec t;
    clock_gettime(CLOCK_MONOTONIC, &t);
    return (double)t.tv_sec + (double)t.tv_nsec / 1e9;
}

static int order(const void *a, const void *b)
{
    double x = *(const double *)a, y = *(const double *)b;
    return (x > y) - (x < y);
}

int main(int argc, char **argv)
{
    uint32_t ring = argc > 1 ? (uint32_t)atoi(argv[1]) : 0, posts = ring > 100 ? 500 : 5000, v, k, i;
    double *times = malloc(posts * sizeof *times), begun;
    struct pgboard_board board = {0};
    struct pgboard_game game = {sizeof game, owners, N, priorities, N, starts, N + 1, targets, N};
    struct pgboard_claim claim = {sizeof claim, 1, 0, vertices, ring, choices, ring};
    struct pgboard_posted posted;
    struct pgboard_report report;

    if (!times || ring < (argc > 2 ? 2 : 1) || ring > 1000) {
        fprintf(stderr, "posts ROWS [bad]: 1 to 1000 rows of a claim, 2 to 1000 with a bad one\n");
        return 2;
    }
    for (v = 0; v < N; v++) {
        uint32_t first = v / ring * ring, last = first + ring < N ? first + ring : N;
        priorities[v] = argc > 2 && v == first ? 1 : 2 * (v % 100000) + 2;
        owners[v] = 0;
        starts[v + 1] = v + 1;
        targets[v] = v + 1 < last ? v + 1 : first;
    }
    begun = now();
    if (pgboard_board_open(&board, &game, &report) != PGBOARD_OK)
        return 1;
    printf("open %.1f ms, ", (now() - begun) * 1e3);
    for (i = 0; i < posts; i++) {
        for (k = 0; k < ring; k++) {
            vertices[k] = i * ring + k;
            choices[k] = i * ring + (k + 1) % ring;
        }
        begun = now();
        if (pgboard_board_post(&board, &claim, &posted, &report) != PGBOARD_OK || posted.settled != ring)
            return 1;
        times[i] = (now() - begun) * 1e6;
    }
    qsort(times, posts, sizeof *times, order);
    printf("rows %u: median %.1f us, 99%% %.1f us, most %.1f us\n", ring, times[posts / 2], times[posts * 99 / 100], times[posts - 1]);
    pgboard_board_close(&board);
    free(times);
    return 0;
}
