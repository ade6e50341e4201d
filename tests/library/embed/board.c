/* Goes through the calls on boards of include/pgboard.h: each answer, what is reported beside it, and that nothing else is written.
 * The last line is 'N passed, M failed'. */
#include <string.h>

#include "expect.h"
#include "boards.h"

/* Even owns 0 and 2, Odd owns 1. From 0 to 0 and 1, from 1 to 1, from 2 to 0 and 1. Even wins 0 and 2, and Odd wins 1. */
static void three(void)
{
    static const uint32_t some_starts[] = {0, 2, 3, 5}, some_targets[] = {0, 1, 1, 0, 1};
    n = 3;
    memcpy(owners, "\0\1\0", 3);
    priorities[0] = 2, priorities[1] = 1, priorities[2] = 3;
    memcpy(starts, some_starts, sizeof some_starts);
    memcpy(targets, some_targets, sizeof some_targets);
}

/* A claim of one vertex. */
static uint32_t post_one(uint32_t player, uint32_t v, uint32_t choice)
{
    return post(7, player, &v, 1, &choice, 1);
}

/* The call's answer and report, and that it has changed neither the board nor the arrays for results. */
static int refuses(uint32_t (*call)(void), uint32_t answer, uint64_t at, uint64_t to)
{
    struct view before = view(), after;
    struct pgboard_posted kept = {11, 12, 13};
    posted = kept;
    memset(winners, 9, sizeof winners), memset(choices, 9, sizeof choices);
    int holds = call() == answer && report.at == at && report.to == to && memcmp(&posted, &kept, sizeof kept) == 0;
    for (size_t v = 0; v < MOST; v++)
        holds &= winners[v] == 9 && choices[v] == 0x09090909;
    after = view();
    return holds && memcmp(&before, &after, sizeof after) == 0;
}

static struct pgboard_entry entry;
static uint32_t rows[MOST], row_choices[MOST];
static uint64_t asked;
static size_t rows_len, row_choices_len;

static uint32_t reads(void)
{
    return pgboard_board_entry(&board, asked, &entry, rows, rows_len, row_choices, row_choices_len, &report);
}

static int not_read(uint64_t number, size_t first, size_t second, uint32_t answer, uint64_t at)
{
    struct pgboard_entry kept = {1, 2, 3, 4};
    asked = number, rows_len = first, row_choices_len = second, entry = kept;
    memset(rows, 9, sizeof rows), memset(row_choices, 9, sizeof row_choices);
    int holds = refuses(reads, answer, at, 0) && memcmp(&entry, &kept, sizeof kept) == 0;
    for (size_t k = 0; k < MOST; k++)
        holds &= rows[k] == 0x09090909 && row_choices[k] == 0x09090909;
    return holds;
}

static uint32_t finishes(void)
{
    return pgboard_board_finish(&board, &report);
}

/* The most steps of a call with a bound. */
static uint64_t steps;

static uint32_t finishes_within(void)
{
    return pgboard_board_finish_within(&board, steps, &report);
}

static uint32_t solves_within(void)
{
    struct pgboard_game it = game();
    struct pgboard_results into = results();
    return pgboard_solve_within(&it, steps, &into, &report);
}

/* From arrays in which nothing is known. */
static uint32_t solves_known_within(void)
{
    uint8_t no_winners[MOST];
    memset(no_winners, PGBOARD_NO_WINNER, n);
    struct pgboard_game it = game();
    struct pgboard_solution known = {.size = sizeof known, .winners = no_winners, .winners_len = n, .choices = targets, .choices_len = n};
    struct pgboard_results into = results();
    return pgboard_solve_known_within(&it, &known, steps, &into, &report);
}

static uint32_t posts_zero(void)
{
    return post_one(0, 0, 0);
}

static void is_closed_at_first(void)
{
    three();
    EXPECT(refuses(posts_zero, PGBOARD_BOARD_CLOSED, 0, 0));
    EXPECT(refuses(state, PGBOARD_BOARD_CLOSED, 0, 0));
    EXPECT(refuses(finishes, PGBOARD_BOARD_CLOSED, 0, 0));
    EXPECT(refuses(finishes_within, PGBOARD_BOARD_CLOSED, 0, 0));
    EXPECT(refuses(solution, PGBOARD_BOARD_CLOSED, 0, 0));
    EXPECT(not_read(0, MOST, MOST, PGBOARD_BOARD_CLOSED, 0));
    EXPECT(pgboard_board_settled(&board) == 0 && pgboard_board_entries(&board) == 0);
    EXPECT(pgboard_board_vertices(&board) == 0 && is_not_read(0, PGBOARD_BOARD_CLOSED, 0));
    pgboard_board_close(&board);
    priorities[1] = PGBOARD_MAX_NUMBER + 1;
    EXPECT(refuses(opens, PGBOARD_PRIORITY, 1, 0));
    targets[1] = 3, priorities[1] = 1;
    EXPECT(refuses(opens, PGBOARD_UNKNOWN, 0, 3));
    EXPECT(!board.live);
}

static const uint32_t no_rows[1];
static uint32_t posts_size(void)
{
    struct pgboard_claim it = {.size = sizeof it + 8, .player = 9, .vertices = no_rows, .choices = no_rows};
    return pgboard_board_post(&board, &it, &posted, &report);
}
static uint32_t posts_player(void) { return post(7, 2, no_rows, 0, no_rows, 1); }
static uint32_t posts_lengths(void) { return post(7, 1, no_rows, 0, no_rows, 1); }
static uint32_t posts_nothing(void) { return post(7, 0, no_rows, 0, no_rows, 0); }
static uint32_t posts_falling(void) { return post(7, 0, (uint32_t[]){2, 0}, 2, (uint32_t[]){0, 0}, 2); }
static uint32_t posts_twice(void) { return post(7, 0, (uint32_t[]){0, 0}, 2, (uint32_t[]){0, 0}, 2); }
static uint32_t posts_outside(void) { return post_one(0, 3, 0); }
static uint32_t posts_no_successor(void) { return post_one(0, 0, 2); }
static uint32_t posts_no_choice(void) { return post_one(0, 0, NONE); }
static uint32_t posts_others_choice(void) { return post_one(0, 1, 1); }
static uint32_t posts_cycle(void) { return post_one(0, 1, NONE); }
static uint32_t posts_open(void) { return post(7, 0, (uint32_t[]){0, 2}, 2, (uint32_t[]){0, 1}, 2); }
static uint32_t posts_lost(void) { return post(7, 1, (uint32_t[]){1, 2}, 2, (uint32_t[]){1, NONE}, 2); }
static uint32_t posts_stale(void) { return post(7, 0, (uint32_t[]){0, 2}, 2, (uint32_t[]){0, 0}, 2); }

static void posts_and_refuses(void)
{
    three();
    EXPECT(opens() == PGBOARD_OK && report.at == 0 && report.to == 0);
    EXPECT(refuses(opens, PGBOARD_BOARD_OPEN, 0, 0));
    EXPECT(refuses(posts_size, PGBOARD_SIZE, PGBOARD_STRUCT_CLAIM, sizeof(struct pgboard_claim)));
    EXPECT(refuses(posts_player, PGBOARD_POST_PLAYER, 2, 0));
    EXPECT(refuses(posts_lengths, PGBOARD_POST_LENGTHS, 0, 1));
    EXPECT(refuses(posts_nothing, PGBOARD_POST_SHAPE, 0, 0));
    EXPECT(refuses(posts_falling, PGBOARD_POST_SHAPE, 1, 0));
    EXPECT(refuses(posts_twice, PGBOARD_POST_SHAPE, 1, 0));
    EXPECT(refuses(posts_outside, PGBOARD_POST_SHAPE, 0, 0));
    EXPECT(refuses(posts_no_successor, PGBOARD_POST_SHAPE, 0, 0));
    EXPECT(refuses(posts_no_choice, PGBOARD_POST_SHAPE, 0, 0));
    EXPECT(refuses(posts_others_choice, PGBOARD_POST_SHAPE, 0, 0));
    EXPECT(refuses(posts_cycle, PGBOARD_POST_CYCLE, 1, 0));
    EXPECT(refuses(posts_open, PGBOARD_POST_OPEN, 2, 1));
    EXPECT(refuses(solution, PGBOARD_BOARD_UNSETTLED, 3, 0));
    EXPECT(not_read(0, MOST, MOST, PGBOARD_BOARD_ENTRY, 0));
    EXPECT(is_read(0, 0) && is_read(1, 1) && is_read(2, 2));
    EXPECT(is_not_read(3, PGBOARD_BOARD_VERTEX, 3) && is_not_read(UINT32_MAX, PGBOARD_BOARD_VERTEX, 3));
    EXPECT(posts_zero() == PGBOARD_OK && posted.entry == 0 && posted.claimed == 1 && posted.settled == 2);
    EXPECT(state() == PGBOARD_OK && winners[0] == 0 && winners[1] == PGBOARD_NO_WINNER && winners[2] == 0);
    EXPECT(choices[0] == 0 && choices[1] == NONE && choices[2] == 0);
    EXPECT(refuses(posts_stale, PGBOARD_POST_STALE, 0, 0));
    EXPECT(refuses(posts_lost, PGBOARD_POST_LOST, 2, 0));
    EXPECT(refuses(solution, PGBOARD_BOARD_UNSETTLED, 1, 0));
    EXPECT(not_read(0, 1, MOST, PGBOARD_CAPACITY, 2) && not_read(0, MOST, 1, PGBOARD_CAPACITY, 2));
    EXPECT(not_read(1, MOST, MOST, PGBOARD_BOARD_ENTRY, 1) && not_read(UINT64_MAX, MOST, MOST, PGBOARD_BOARD_ENTRY, 1));
    memset(rows, 9, sizeof rows), memset(row_choices, 9, sizeof row_choices);
    asked = 0, rows_len = 2, row_choices_len = 3;
    EXPECT(reads() == PGBOARD_OK && entry.worker == 7 && entry.player == 0 && entry.claimed == 1 && entry.rows == 2);
    EXPECT(rows[0] == 0 && rows[1] == 2 && rows[2] == 0x09090909 && row_choices[0] == 0 && row_choices[1] == 0 && row_choices[2] == 0x09090909);
    EXPECT(finishes() == PGBOARD_OK && pgboard_board_settled(&board) == 3 && pgboard_board_entries(&board) == 2);
    asked = 1;
    EXPECT(reads() == PGBOARD_OK && entry.worker == 0 && entry.player == 1 && entry.claimed == 1 && entry.rows == 1 && rows[0] == 1 && row_choices[0] == 1);
    EXPECT(solution() == PGBOARD_OK && winners[0] == 0 && winners[1] == 1 && winners[2] == 0);
    EXPECT(finishes() == PGBOARD_OK && pgboard_board_entries(&board) == 2);
    pgboard_board_close(&board);
    EXPECT(refuses(finishes, PGBOARD_BOARD_CLOSED, 0, 0));
    pgboard_board_close(&board);
}

static uint32_t misfits(uint32_t (*call)(struct pgboard_board *, struct pgboard_results *, struct pgboard_report *), size_t size, size_t first, size_t second)
{
    struct pgboard_results it = {.size = size, .winners = winners, .winners_len = first, .choices = choices, .choices_len = second};
    return call(&board, &it, &report);
}

static void refuses_results(void)
{
    uint32_t (*calls[])(struct pgboard_board *, struct pgboard_results *, struct pgboard_report *) = {pgboard_board_state, pgboard_board_solution};
    size_t size = sizeof(struct pgboard_results);
    three();
    EXPECT(opens() == PGBOARD_OK);
    for (int k = 0; k < 2; k++) {
        EXPECT(misfits(calls[k], size - 1, 3, 3) == PGBOARD_SIZE && report.at == PGBOARD_STRUCT_RESULTS && report.to == size);
        EXPECT(misfits(calls[k], size, 2, 4) == PGBOARD_RESULTS && report.at == PGBOARD_ARRAY_WINNERS && report.to == 0);
        EXPECT(misfits(calls[k], size, 3, 4) == PGBOARD_RESULTS && report.at == PGBOARD_ARRAY_CHOICES && report.to == 0);
    }
    pgboard_board_close(&board);
}

/* Each allocation is refused in turn, with all after it, until the call needs no more. */
static void refuses_memory(uint32_t (*finish)(void))
{
    uint32_t (*calls[])(void) = {opens, posts_zero, finish, solution};
    three(), steps = 9;
    for (int k = 0; k < 4; k++) {
        uint32_t answer = PGBOARD_MEMORY;
        long refused = 0;
        while (refused < 200 && answer == PGBOARD_MEMORY) {
            struct view before = view(), after;
            posted.entry = 99;
            allowed = refused + 1;
            answer = calls[k]();
            allowed = -1;
            refused += answer == PGBOARD_MEMORY;
            after = view();
            EXPECT(answer == PGBOARD_OK || (memcmp(&before, &after, sizeof after) == 0 && posted.entry == 99 && report.at == 0 && report.to == 0));
        }
        EXPECT(answer == PGBOARD_OK && 0 < refused);
    }
    pgboard_board_close(&board);
}

/* The least bound with which a call does not give up, by halving. The board is a new one before each call, and at the end. */
static uint64_t least_bound(uint32_t (*call)(void))
{
    uint64_t least = 0, enough = 1000000;
    while (least < enough) {
        pgboard_board_close(&board);
        EXPECT(opens() == PGBOARD_OK);
        steps = least + (enough - least) / 2;
        uint32_t answer = call();
        EXPECT(answer == PGBOARD_OK || (answer == PGBOARD_GAVE_UP && report.at == 0 && report.to == 0));
        if (answer == PGBOARD_OK)
            enough = steps;
        else
            least = steps + 1;
    }
    pgboard_board_close(&board);
    EXPECT(opens() == PGBOARD_OK);
    return least;
}

/* Without a step for six vertices that are left, and with one. */
static void takes_one_step(void)
{
    seven();
    EXPECT(opens() == PGBOARD_OK && post_one(1, 6, 6) == PGBOARD_OK);
    steps = 0;
    EXPECT(refuses(solves_within, PGBOARD_GAVE_UP, 0, 0));
    EXPECT(refuses(finishes_within, PGBOARD_GAVE_UP, 0, 0) && pgboard_board_settled(&board) == 1);
    steps = 1;
    EXPECT(solves_within() == PGBOARD_OK && winners[0] == 0 && winners[6] == 1);
    EXPECT(finishes_within() == PGBOARD_OK && pgboard_board_entries(&board) == 2 && solution() == PGBOARD_OK && winners[0] == 0);
    pgboard_board_close(&board);
    /* the searches solve a loop of each player */
    memcpy(owners, "\0\1", 2), memcpy(starts, (uint32_t[]){0, 1, 2}, 12), memcpy(targets, (uint32_t[]){0, 1}, 8);
    n = 2, priorities[0] = 0, priorities[1] = 1, steps = 0;
    EXPECT(solves_within() == PGBOARD_OK && winners[0] == 0 && winners[1] == 1);
    EXPECT(opens() == PGBOARD_OK && finishes_within() == PGBOARD_OK && pgboard_board_entries(&board) == 2);
    pgboard_board_close(&board);
}

/* As many steps as tests/lib/plain.py says, and one fewer. */
static void takes_many_steps(void)
{
    ladder(26);
    EXPECT(opens() == PGBOARD_OK);
    steps = STEPS_OF_26_LEVELS - 1;
    EXPECT(refuses(solves_within, PGBOARD_GAVE_UP, 0, 0) && refuses(finishes_within, PGBOARD_GAVE_UP, 0, 0));
    steps = STEPS_OF_26_LEVELS;
    EXPECT(solves_within() == PGBOARD_OK && finishes_within() == PGBOARD_OK);
    pgboard_board_close(&board);
}

/* With no step, with 10, with one too few and with just enough: a board is finished as a game is solved. */
static void gives_up(void)
{
    uint8_t right[MOST];
    ladder(12);
    uint64_t of_board = least_bound(finishes_within), of_game = least_bound(solves_within);
    EXPECT(10 < of_game && of_game == of_board && of_game == least_bound(solves_known_within));
    steps = of_game;
    EXPECT(solves_within() == PGBOARD_OK);
    memcpy(right, winners, n);
    EXPECT(finishes() == PGBOARD_OK && solution() == PGBOARD_OK && memcmp(right, winners, n) == 0);
    pgboard_board_close(&board);
    EXPECT(opens() == PGBOARD_OK);
    for (int k = 0; k < 3; k++) {
        steps = k == 0 ? 0 : k == 1 ? 10 : of_board - 1;
        EXPECT(refuses(finishes_within, PGBOARD_GAVE_UP, 0, 0));
        steps = k == 0 ? 0 : k == 1 ? 10 : of_game - 1;
        EXPECT(refuses(solves_within, PGBOARD_GAVE_UP, 0, 0));
    }
    steps = of_board;
    EXPECT(finishes_within() == PGBOARD_OK && report.at == 0 && report.to == 0);
    EXPECT(solution() == PGBOARD_OK && memcmp(right, winners, n) == 0);
    steps = 0;
    EXPECT(finishes_within() == PGBOARD_OK);
    pgboard_board_close(&board);
}

/* Any bound from the least one that suffices on is none: the same solution, and the same board. */
static void has_no_effect_with_steps_enough(void)
{
    uint8_t right[MOST];
    uint32_t right_choice[MOST];
    uint64_t seed = 7;
    for (int k = 0; k < 200; k++) {
        random_game(&seed);
        struct pgboard_game it = game();
        struct pgboard_results into = results();
        uint64_t of_game = least_bound(solves_within), of_board = least_bound(finishes_within);
        EXPECT(pgboard_solve(&it, &into, &report) == PGBOARD_OK);
        memcpy(right, winners, n), memcpy(right_choice, choices, n * sizeof *choices);
        for (int any = 0; any < 3; any++) {
            memset(winners, 9, n), memset(choices, 9, n * sizeof *choices);
            steps = any == 0 ? of_game : any == 1 ? of_game + drawn(&seed, 1000) : UINT64_MAX;
            EXPECT(solves_within() == PGBOARD_OK && memcmp(right, winners, n) == 0 && memcmp(right_choice, choices, n * sizeof *choices) == 0);
        }
        EXPECT(finishes() == PGBOARD_OK);
        struct view finished = view(), within;
        pgboard_board_close(&board);
        EXPECT(opens() == PGBOARD_OK);
        steps = drawn(&seed, 2) ? of_board : UINT64_MAX;
        EXPECT(finishes_within() == PGBOARD_OK);
        within = view();
        EXPECT(memcmp(&finished, &within, sizeof within) == 0);
        pgboard_board_close(&board);
    }
}

int main(void)
{
    is_closed_at_first();
    posts_and_refuses();
    refuses_results();
    refuses_memory(finishes);
    refuses_memory(finishes_within);
    takes_one_step();
    takes_many_steps();
    gives_up();
    has_no_effect_with_steps_enough();
    printf("%d passed, %d failed\n", passed, failed);
    return failed != 0;
}
