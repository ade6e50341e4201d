/* What the C programs of the tests on boards share: a game in arrays, its board, all that can be read of a board, and games and claims
 * of several kinds. */
#include <string.h>

#include "pgboard.h"

/* of a game, and of a random one */
#define MOST 130
#define SOME 64
#define NONE PGBOARD_NO_CHOICE

/* A game as arrays, and the structs over them. */
static size_t n;
static uint8_t owners[MOST], winners[MOST];
static uint32_t priorities[MOST], starts[MOST + 1], targets[MOST * 4], choices[MOST];
static struct pgboard_board board;
static struct pgboard_report report;
static struct pgboard_posted posted;

static inline struct pgboard_game game(void)
{
    struct pgboard_game it = {.size = sizeof it, .owners = owners, .owners_len = n, .priorities = priorities, .priorities_len = n,
                              .starts = starts, .starts_len = n + 1, .targets = targets, .targets_len = starts[n]};
    return it;
}

static inline struct pgboard_results results(void)
{
    struct pgboard_results it = {.size = sizeof it, .winners = winners, .winners_len = n, .choices = choices, .choices_len = n};
    return it;
}

static inline uint32_t opens(void)
{
    struct pgboard_game it = game();
    return pgboard_board_open(&board, &it, &report);
}

static inline uint32_t post(uint32_t worker, uint32_t player, const uint32_t *vertices, size_t vertices_len, const uint32_t *chosen,
                            size_t chosen_len)
{
    struct pgboard_claim it = {.size = sizeof it, .worker = worker, .player = player, .vertices = vertices, .vertices_len = vertices_len,
                               .choices = chosen, .choices_len = chosen_len};
    return pgboard_board_post(&board, &it, &posted, &report);
}

static inline uint32_t state(void)
{
    struct pgboard_results it = results();
    return pgboard_board_state(&board, &it, &report);
}

static inline uint32_t solution(void)
{
    struct pgboard_results it = results();
    return pgboard_board_solution(&board, &it, &report);
}

/* The vertex as the arrays have it, and with this identifier: read into an array that just suffices, a longer one, and none that is
 * shorter. */
static inline int is_read(uint32_t v, uint32_t identifier)
{
    struct pgboard_vertex it, kept = {1, 2, 3, 4};
    uint32_t row[MOST + 1], right[MOST], count = 0;
    int holds = pgboard_board_vertices(&board) == n;
    for (uint32_t w = 0; w < n; w++)
        for (uint32_t e = starts[v]; e < starts[v + 1]; e++)
            if (targets[e] == w && (count == 0 || right[count - 1] != w))
                right[count++] = w;
    for (uint32_t length = 0; length < count + 2; length++) {
        memset(row, 9, sizeof row), it = kept, report.at = report.to = 99;
        uint32_t answer = pgboard_board_vertex(&board, v, &it, row, length, &report);
        if (length < count) {
            holds &= answer == PGBOARD_CAPACITY && report.at == count && report.to == 0;
            holds &= memcmp(&it, &kept, sizeof it) == 0 && row[0] == 0x09090909;
            continue;
        }
        holds &= answer == PGBOARD_OK && report.at == 0 && report.to == 0;
        holds &= it.id == identifier && it.priority == priorities[v] && it.owner == owners[v] && it.successors == count;
        holds &= memcmp(row, right, count * sizeof *row) == 0 && row[count] == 0x09090909;
    }
    return holds;
}

/* No vertex is read. */
static inline int is_not_read(uint32_t v, uint32_t answer, uint64_t at)
{
    struct pgboard_vertex it = {1, 2, 3, 4}, kept = it;
    uint32_t row[] = {9, 9};
    report.at = report.to = 99;
    int holds = pgboard_board_vertex(&board, v, &it, row, 2, &report) == answer && report.at == at && report.to == 0;
    return holds && memcmp(&it, &kept, sizeof it) == 0 && row[0] == 9 && row[1] == 9;
}

/* All that can be read of the board: the state, and the rows of the journal. */
struct view {
    uint8_t winners[MOST];
    uint32_t choices[MOST], vertices[MOST], chosen[MOST];
    struct pgboard_entry entries[MOST];
    uint64_t settled, count;
};

static inline struct view view(void)
{
    struct view it;
    struct pgboard_report unused;
    struct pgboard_results into = {.size = sizeof into, .winners = it.winners, .winners_len = n, .choices = it.choices, .choices_len = n};
    size_t at = 0;
    memset(&it, 0, sizeof it);
    it.settled = pgboard_board_settled(&board), it.count = pgboard_board_entries(&board);
    if (pgboard_board_state(&board, &into, &unused) != PGBOARD_OK)
        return it;
    for (uint64_t number = 0; number < it.count; number++) {
        EXPECT(pgboard_board_entry(&board, number, &it.entries[number], it.vertices + at, MOST - at, it.chosen + at, MOST - at, &unused) == PGBOARD_OK);
        at += it.entries[number].rows;
    }
    EXPECT(at == it.settled);
    return it;
}

/* Random numbers (xorshift). */
static inline uint64_t drawn(uint64_t *seed, uint64_t below)
{
    *seed ^= *seed << 13, *seed ^= *seed >> 7, *seed ^= *seed << 17;
    return (*seed >> 11) % below;
}

static inline void random_game(uint64_t *seed)
{
    n = 2 + drawn(seed, SOME - 2);
    starts[0] = 0;
    for (size_t v = 0; v < n; v++) {
        owners[v] = (uint8_t)drawn(seed, 2), priorities[v] = (uint32_t)drawn(seed, 7);
        starts[v + 1] = starts[v] + 1 + (uint32_t)drawn(seed, 3);
        for (uint32_t e = starts[v]; e < starts[v + 1]; e++)
            targets[e] = (uint32_t)drawn(seed, n);
    }
}

/* The recursive ladder (Friedmann 2011), on which a recursion that keeps nothing takes time exponential in the levels. The
 * number of steps is that of what the searches leave: no dominion of at most four vertices. */
#define STEPS_OF_26_LEVELS 85
static inline void ladder(uint32_t levels)
{
    uint32_t a = 0, b = levels, c = 2 * levels, d = 3 * levels, e = 4 * levels, to = 0;
    n = 5 * levels;
    for (uint32_t kind = 0; kind < 5; kind++)
        for (uint32_t i = 0; i < levels; i++) {
            uint32_t v = kind * levels + i, is_odd = i % 2;
            starts[v] = to;
            if (kind == 0)
                owners[v] = (uint8_t)is_odd, priorities[v] = is_odd, targets[to++] = b + i, targets[to++] = d + i;
            if (kind == 1)
                owners[v] = (uint8_t)!is_odd, priorities[v] = is_odd, targets[to++] = a + i;
            if (kind == 1 && i + 1 < levels)
                targets[to++] = c + i + 1;
            if (kind == 2)
                owners[v] = (uint8_t)!is_odd, priorities[v] = 3 * i + 5, targets[to++] = b + i, targets[to++] = d + i;
            if (kind == 3)
                owners[v] = (uint8_t)is_odd, priorities[v] = 3 * i + 4, targets[to++] = e + i;
            if (kind == 3 && i > 0)
                targets[to++] = d + i - 1;
            if (kind == 3 && i + 1 < levels)
                targets[to++] = d + i + 1;
            if (kind == 4)
                owners[v] = (uint8_t)!is_odd, priorities[v] = 3 * i + 3, targets[to++] = d + i;
            if (kind == 4 && i > 0)
                targets[to++] = b + i - 1;
        }
    starts[n] = to;
}

/* Six vertices of priority 0. Each set that Even wins without leaving it has five or more, so no search finds one, and the recursion
 * solves them in one step. The last vertex is Odd's own loop. */
static inline void seven(void)
{
    static const uint32_t some_targets[] = {2, 3, 3, 4, 1, 3, 1, 5, 1, 2, 2, 3, 6};
    n = 7;
    for (uint32_t v = 0; v < n; v++)
        owners[v] = v % 2 || v == 6, priorities[v] = v == 6, starts[v] = 2 * v;
    starts[n] = 13;
    memcpy(targets, some_targets, sizeof some_targets);
}

/* The winners and the choices, of which claims are made. */
static uint8_t right_winners[MOST];
static uint32_t right_choices[MOST];

struct rows {
    uint32_t worker, player, vertices[MOST + 1], choices[MOST + 1];
    size_t vertices_len, choices_len;
};

/* All that the player reaches by the solution's kept edges from a vertex that he wins. */
static inline struct rows good_claim(uint64_t *seed)
{
    struct rows it = {0};
    char in[MOST] = {0};
    size_t v = drawn(seed, n);
    it.player = right_winners[v], in[v] = 1;
    for (size_t turn_of = 0; turn_of < n; turn_of++)
        for (v = 0; v < n; v++)
            for (uint32_t e = starts[v]; in[v] && e < starts[v + 1]; e++)
                if (owners[v] != it.player || targets[e] == right_choices[v])
                    in[targets[e]] = 1;
    for (v = 0; v < n; v++)
        if (in[v]) {
            it.vertices[it.vertices_len++] = (uint32_t)v;
            it.choices[it.choices_len++] = owners[v] == it.player ? right_choices[v] : NONE;
        }
    return it;
}
