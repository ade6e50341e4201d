/* Games of many vertices: two on which the recursion alone takes a time that is quadratic in their size, one that is left to the
 * recursion, random ones with one or two edges at each vertex, and the memory that a call asks for. The library searches first, as the
 * program does. One board is finished part by part, by short calls. */
#include <pthread.h>
#include <string.h>
#include <time.h>

#include "expect.h"
#include "pgboard.h"

#define N 65536u
#define SECONDS 5.0
/* of a call that finishes a part */
#define SHORT 0.5
/* of a random game */
#define VERTICES 2000u
#define STEPS 10000u

static uint32_t n;
static uint8_t owners[N], winners[N], known[N], again[N];
static uint32_t priorities[N], starts[N + 1], targets[4 * N], choices[N], others[N], known_choices[N];
static struct pgboard_report report;

static struct pgboard_game game(void)
{
    struct pgboard_game it = {.size = sizeof it, .owners = owners, .owners_len = n, .priorities = priorities, .priorities_len = n,
                              .starts = starts, .starts_len = n + 1, .targets = targets, .targets_len = starts[n]};
    return it;
}

static struct pgboard_results results(uint8_t *into, uint32_t *chosen)
{
    struct pgboard_results it = {.size = sizeof it, .winners = into, .winners_len = n, .choices = chosen, .choices_len = n};
    return it;
}

static int is_solution(void)
{
    struct pgboard_game it = game();
    struct pgboard_solution found = {.size = sizeof found, .winners = winners, .winners_len = n, .choices = choices, .choices_len = n};
    return pgboard_check(&it, &found, &report) == PGBOARD_OK;
}

enum kind { LOOPS, PATH, SPREAD };

/* The targets of each vertex: itself, its neighbours on a path that Even owns, or two vertices that look random. */
static void make(enum kind kind)
{
    uint32_t v, edges = 0;
    n = N;
    for (v = 0; v < n; v++) {
        owners[v] = (uint8_t)(kind == PATH ? 0 : v / 3 % 2);
        priorities[v] = kind == SPREAD ? v % 11 : v;
        if (kind == LOOPS) {
            targets[edges++] = v;
        } else if (kind == SPREAD) {
            targets[edges++] = v * 2654435761u % N;
            targets[edges++] = (v * 40503u + 12345u) % N;
        } else {
            if (v > 0) targets[edges++] = v - 1;
            if (v + 1 < n) targets[edges++] = v + 1;
        }
        starts[v + 1] = edges;
        known[v] = PGBOARD_NO_WINNER;
        known_choices[v] = PGBOARD_NO_CHOICE;
    }
}

static void is_not_quadratic(enum kind kind)
{
    struct pgboard_results into, more;
    struct pgboard_solution unknown = {.size = sizeof unknown, .winners = known, .winners_len = N, .choices = known_choices, .choices_len = N};
    clock_t begun = clock();
    uint32_t v, right = 0;
    make(kind);
    struct pgboard_game it = game();
    into = results(winners, choices), more = results(again, others);
    EXPECT(pgboard_solve_known(&it, &unknown, &more, &report) == PGBOARD_OK);
    EXPECT(pgboard_solve(&it, &into, &report) == PGBOARD_OK);
    EXPECT((double)(clock() - begun) / CLOCKS_PER_SEC < SECONDS);
    EXPECT(is_solution() && memcmp(winners, again, n) == 0);
    EXPECT(kind != SPREAD || pgboard_solve_within(&it, 0, &more, &report) == PGBOARD_GAVE_UP);
    for (v = 0; v < n; v++)
        right += kind != LOOPS || winners[v] == v % 2;
    EXPECT(right == n);
}

/* The game is solved; a board of it is finished part by part, by calls of which none takes long. */
static void is_advanced_by_short_calls(void)
{
    struct pgboard_board board = {0};
    struct pgboard_game it = game();
    struct pgboard_results more = results(again, others);
    double longest = 0;
    uint64_t calls = 0, taken = 0;
    uint32_t answer;
    EXPECT(pgboard_board_open(&board, &it, &report) == PGBOARD_OK);
    do {
        uint64_t steps = 1;
        clock_t begun = clock();
        answer = pgboard_board_advance(&board, &steps, &report);
        double took = (double)(clock() - begun) / CLOCKS_PER_SEC;
        longest = took > longest ? took : longest, calls++, taken += 1 - steps;
    } while (answer == PGBOARD_BOARD_UNSETTLED);
    EXPECT(answer == PGBOARD_OK && calls > taken && taken > 0 && longest < SHORT);
    EXPECT(pgboard_board_solution(&board, &more, &report) == PGBOARD_OK && memcmp(winners, again, n) == 0);
    pgboard_board_close(&board);
}

/* On 64 KB of stack. */
static void *need_little_stack(void *unused)
{
    is_not_quadratic(LOOPS);
    is_not_quadratic(PATH);
    is_not_quadratic(SPREAD);
    is_advanced_by_short_calls();
    return unused;
}

/* Random numbers (xorshift). */
static uint64_t seed = 20261128;

static uint32_t drawn(uint64_t below)
{
    seed ^= seed << 13, seed ^= seed >> 7, seed ^= seed << 17;
    return (uint32_t)((seed >> 11) % below);
}

/* One or two targets at each vertex, and priorities of 31 bits. */
static void random_game(void)
{
    n = VERTICES, starts[0] = 0;
    for (uint32_t v = 0; v < n; v++) {
        owners[v] = (uint8_t)drawn(2), priorities[v] = drawn((uint64_t)1 << 31);
        starts[v + 1] = starts[v] + 1 + drawn(2);
        for (uint32_t e = starts[v]; e < starts[v + 1]; e++)
            targets[e] = drawn(n);
    }
}

/* Claims all that the winner of the vertex reaches from it by the solution's kept edges. */
static uint32_t post_from(struct pgboard_board *board, uint32_t first)
{
    static uint8_t in[N];
    static uint32_t queue[N], vertices[N], chosen[N];
    uint32_t found = 1, size = 0, player = winners[first];
    struct pgboard_posted posted;
    memset(in, 0, sizeof in), in[first] = 1, queue[0] = first;
    for (uint32_t at = 0; at < found; at++)
        for (uint32_t v = queue[at], e = starts[v]; e < starts[v + 1]; e++)
            if (!in[targets[e]] && (owners[v] != player || targets[e] == choices[v]))
                in[targets[e]] = 1, queue[found++] = targets[e];
    for (uint32_t v = 0; v < n; v++)
        if (in[v])
            vertices[size] = v, chosen[size++] = owners[v] == player ? choices[v] : PGBOARD_NO_CHOICE;
    struct pgboard_claim claim = {.size = sizeof claim, .worker = 1, .player = player, .vertices = vertices, .vertices_len = size,
                                  .choices = chosen, .choices_len = size};
    return pgboard_board_post(board, &claim, &posted, &report);
}

/* Finishes a new board, and one on which half of the solution or more was posted, each within the steps. Mostly that leaves some. */
static void is_finished_as_fast_as_solved(void)
{
    int left = 0;
    for (int k = 0; k < 20; k++) {
        random_game();
        struct pgboard_game it = game();
        struct pgboard_results into = results(winners, choices), more = results(again, others);
        EXPECT(pgboard_solve_within(&it, STEPS, &into, &report) == PGBOARD_OK && is_solution());
        for (int is_begun = 0; is_begun < 2; is_begun++) {
            struct pgboard_board board = {0};
            EXPECT(pgboard_board_open(&board, &it, &report) == PGBOARD_OK);
            while (is_begun && pgboard_board_settled(&board) < n / 2) {
                uint32_t answer = post_from(&board, drawn(n));
                EXPECT(answer == PGBOARD_OK || answer == PGBOARD_POST_STALE);
            }
            left += is_begun && pgboard_board_settled(&board) < n;
            EXPECT(pgboard_board_finish_within(&board, STEPS, &report) == PGBOARD_OK);
            EXPECT(pgboard_board_solution(&board, &more, &report) == PGBOARD_OK && memcmp(winners, again, n) == 0);
            pgboard_board_close(&board);
        }
    }
    EXPECT(left > 10);
}

/* Each vertex is a dominion of its owner, so the first search settles all. The 2,048 others would copy the board, at 256 bytes a
 * vertex. A post has capacity for a row of 12 bytes at each vertex. */
static void asks_for_little_memory(void)
{
    struct pgboard_board board = {0};
    make(LOOPS);
    for (uint32_t v = 0; v < n; v++)
        owners[v] = (uint8_t)(v % 2);
    struct pgboard_game it = game();
    struct pgboard_results into = results(winners, choices);
    asked_bytes = 0;
    EXPECT(pgboard_solve(&it, &into, &report) == PGBOARD_OK && is_solution());
    EXPECT(asked_bytes < 200 * (size_t)n);
    EXPECT(pgboard_board_open(&board, &it, &report) == PGBOARD_OK);
    asked_bytes = 0;
    EXPECT(post_from(&board, 1) == PGBOARD_OK && pgboard_board_settled(&board) == 1);
    EXPECT(asked_bytes < 12 * (size_t)n + 1000);
    asked_bytes = 0;
    EXPECT(pgboard_board_finish(&board, &report) == PGBOARD_OK);
    EXPECT(asked_bytes < 100 * (size_t)n);
    asked_bytes = 0;
    EXPECT(pgboard_board_settled(&board) == n && pgboard_board_entries(&board) == 3);
    EXPECT(asked_bytes == 0);
    pgboard_board_close(&board);
}

int main(void)
{
    pthread_attr_t little;
    pthread_t thread;
    EXPECT(pthread_attr_init(&little) == 0 && pthread_attr_setstacksize(&little, 65536) == 0);
    EXPECT(pthread_create(&thread, &little, need_little_stack, NULL) == 0 && pthread_join(thread, NULL) == 0);
    is_finished_as_fast_as_solved();
    asks_for_little_memory();
    printf("%d passed, %d failed\n", passed, failed);
    return failed != 0;
}
