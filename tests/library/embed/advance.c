/* Goes through pgboard_board_advance: on random games with posts before and between the calls, on games of many steps, and with refused
 * memory. Each board is compared with one that has the same posts and is finished by pgboard_board_finish, and each number of steps
 * with the bounds of pgboard_board_finish_within. The last line is 'N passed, M failed'. The argument is the number of random games. */
#include "expect.h"
#include "boards.h"

/* Fewer games than these are a shorter test, as for valgrind. */
#define FEW 100

static uint64_t steps;

static uint32_t advances(void)
{
    return pgboard_board_advance(&board, &steps, &report);
}

static int is_same(const struct view *first, const struct view *second)
{
    return memcmp(first, second, sizeof *first) == 0;
}

/* Whether all entries are still there, before those that are new, and the new ones have the worker 0. */
static int is_kept(const struct view *before, const struct view *after)
{
    int holds = before->count <= after->count && before->settled <= after->settled
                && memcmp(before->entries, after->entries, before->count * sizeof *before->entries) == 0
                && memcmp(before->vertices, after->vertices, before->settled * sizeof *before->vertices) == 0
                && memcmp(before->chosen, after->chosen, before->settled * sizeof *before->chosen) == 0;
    for (uint64_t number = before->count; number < after->count; number++)
        holds &= after->entries[number].worker == 0;
    return holds;
}

/* A new board with the same posts. */
static void opens_with(const struct view *from)
{
    size_t at = 0;
    pgboard_board_close(&board);
    EXPECT(opens() == PGBOARD_OK);
    for (uint64_t number = 0; number < from->count; number++) {
        const struct pgboard_entry *it = &from->entries[number];
        EXPECT(post(it->worker, it->player, from->vertices + at, it->claimed, from->chosen + at, it->claimed) == PGBOARD_OK);
        at += it->rows;
    }
    struct view now = view();
    EXPECT(is_same(from, &now));
}

/* What the calls did since the board was opened or something was posted. */
struct run {
    struct view begun;
    uint64_t steps, calls;
    int in_recursion;
};
static struct run run;

static void begins(void)
{
    memset(&run, 0, sizeof run);
    run.begun = view();
}

/* One call with so many steps. Returns whether all is settled. */
static int advances_by(uint64_t given)
{
    struct view before = view(), after;
    report.at = report.to = 9, steps = given;
    uint32_t answer = advances();
    after = view();
    EXPECT(answer == PGBOARD_OK || answer == PGBOARD_BOARD_UNSETTLED);
    EXPECT(report.at == n - after.settled && report.to == 0 && steps <= given);
    EXPECT((answer == PGBOARD_OK) == (after.settled == n) && is_kept(&before, &after));
    /* a call makes a search and takes no step, or it takes steps of the recursion, all of them if that is not the end */
    if (answer != PGBOARD_OK && given != steps)
        run.in_recursion = 1;
    EXPECT(answer == PGBOARD_OK || steps == (run.in_recursion ? 0 : given));
    EXPECT(answer == PGBOARD_OK || !run.in_recursion || is_same(&before, &after));
    run.steps += given - steps, run.calls++;
    return answer == PGBOARD_OK;
}

static uint64_t some_steps(uint64_t *seed, uint64_t most)
{
    return most == UINT64_MAX ? most : drawn(seed, most + 1);
}

static void solves(void)
{
    struct pgboard_game it = game();
    struct pgboard_results right = {.size = sizeof right, .winners = right_winners, .winners_len = n, .choices = right_choices, .choices_len = n};
    EXPECT(pgboard_solve(&it, &right, &report) == PGBOARD_OK);
}

/* The board is full. A new one with the same posts, which is finished in one call, is the same, and needs just as many steps. So does the
 * game if all is known that was settled then. */
static void is_as_finished(void)
{
    struct view ended = view(), other;
    struct pgboard_game it = game();
    struct pgboard_results into = results();
    struct pgboard_solution found = {.size = sizeof found, .winners = winners, .winners_len = n, .choices = choices, .choices_len = n};
    struct pgboard_solution known = found;
    known.winners = run.begun.winners, known.choices = run.begun.choices;
    EXPECT(solution() == PGBOARD_OK && memcmp(winners, right_winners, n) == 0 && pgboard_check(&it, &found, &report) == PGBOARD_OK);
    opens_with(&run.begun);
    EXPECT(pgboard_board_finish(&board, &report) == PGBOARD_OK);
    other = view();
    EXPECT(is_same(&ended, &other));
    opens_with(&run.begun);
    EXPECT(run.steps == 0 || pgboard_board_finish_within(&board, run.steps - 1, &report) == PGBOARD_GAVE_UP);
    EXPECT(pgboard_board_finish_within(&board, run.steps, &report) == PGBOARD_OK);
    other = view();
    EXPECT(is_same(&ended, &other));
    EXPECT(run.steps == 0 || pgboard_solve_known_within(&it, &known, run.steps - 1, &into, &report) == PGBOARD_GAVE_UP);
    EXPECT(pgboard_solve_known_within(&it, &known, run.steps, &into, &report) == PGBOARD_OK);
}

/* A game of one of some kinds; the last is left to the recursion. */
static void some_game(uint64_t *seed)
{
    uint64_t kind = drawn(seed, 4);
    if (kind < 3) {
        random_game(seed);
        for (size_t v = 0; v < n && kind > 0; v++)
            priorities[v] = (uint32_t)drawn(seed, kind == 1 ? 3 : n);
    } else {
        ladder(1 + (uint32_t)drawn(seed, 12));
    }
}

/* How many games took a step, and more of them over several calls; how many posts came between calls, and in the recursion. */
static uint64_t with_steps, with_calls, between, within;

static void posts_some(uint64_t *seed)
{
    struct rows it = good_claim(seed);
    struct view before = view(), after;
    uint32_t answer = post(7, it.player, it.vertices, it.vertices_len, it.choices, it.choices_len);
    EXPECT(answer == PGBOARD_OK || answer == PGBOARD_POST_STALE);
    after = view();
    if (answer == PGBOARD_OK) {
        EXPECT(posted.entry == before.count && after.count == before.count + 1 && after.entries[before.count].worker == 7);
        between++, within += (uint64_t)run.in_recursion;
        begins();
    } else {
        /* (a refused post has no call begin anew) */
        EXPECT(is_same(&before, &after));
    }
}

static void finishes_random_games(long games)
{
    static const uint64_t mosts[] = {0, 1, 3, 20, 1000, UINT64_MAX};
    uint64_t seed = 20261129;
    for (long k = 0; k < games; k++) {
        some_game(&seed), solves();
        EXPECT(opens() == PGBOARD_OK);
        for (uint64_t known = drawn(&seed, 3); known > 0; known--)
            posts_some(&seed);
        uint64_t most = mosts[1 + drawn(&seed, 5)];
        begins();
        struct view begun = run.begun;
        while (!advances_by(some_steps(&seed, most)))
            continue;
        with_steps += run.steps > 0, with_calls += (uint64_t)run.in_recursion;
        is_as_finished();
        /* again, with posts between the calls */
        opens_with(&begun), begins();
        most = mosts[1 + drawn(&seed, 5)];
        uint64_t left = drawn(&seed, 4), until = drawn(&seed, 2) ? 3 : 1000000;
        while (!advances_by(some_steps(&seed, most)))
            if (left > 0 && (run.in_recursion || drawn(&seed, until) == 0))
                posts_some(&seed), left--;
        is_as_finished();
        pgboard_board_close(&board);
    }
    printf("%llu games took steps, %llu over several calls; %llu posts between calls, %llu in the recursion\n", (unsigned long long)with_steps,
           (unsigned long long)with_calls, (unsigned long long)between, (unsigned long long)within);
    uint64_t all = (uint64_t)games;
    EXPECT(games < FEW || (with_steps > all / 10 && with_calls > all / 20 && between > all / 5 && within > all / 50));
}

/* No board, one that needs no step, one that needs one, and a full one. */
static void takes_no_step_too_many(void)
{
    steps = 5;
    EXPECT(advances() == PGBOARD_BOARD_CLOSED && report.at == 0 && report.to == 0 && steps == 5);
    seven(), solves();
    EXPECT(opens() == PGBOARD_OK), begins();
    for (int k = 0; k < 3000; k++)
        EXPECT(!advances_by(0));
    struct view before = view();
    EXPECT(before.settled == 1 && before.winners[6] == 1);
    steps = 7;
    EXPECT(advances() == PGBOARD_OK && steps == 6 && pgboard_board_settled(&board) == 7);
    run.steps = 1, is_as_finished();
    EXPECT(advances() == PGBOARD_OK && steps == 6 && pgboard_board_entries(&board) == 2);
    pgboard_board_close(&board);
    memcpy(owners, "\0\1", 2), memcpy(starts, (uint32_t[]){0, 1, 2}, 12), memcpy(targets, (uint32_t[]){0, 1}, 8);
    n = 2, priorities[0] = 0, priorities[1] = 1;
    solves();
    EXPECT(opens() == PGBOARD_OK), begins();
    while (!advances_by(0))
        continue;
    EXPECT(run.steps == 0);
    is_as_finished();
    pgboard_board_close(&board);
    EXPECT(advances() == PGBOARD_BOARD_CLOSED && steps == 0);
}

/* Each number of steps up to some, and calls in between that change nothing. */
static void goes_on_where_it_was(uint64_t sizes)
{
    uint64_t all = 0;
    ladder(12), solves();
    for (uint64_t size = 1; size <= sizes; size++) {
        EXPECT(opens() == PGBOARD_OK), begins();
        for (int is_full = 0; !is_full;) {
            is_full = advances_by(size);
            if (run.in_recursion && !is_full) {
                EXPECT(pgboard_board_finish_within(&board, 0, &report) == PGBOARD_GAVE_UP && solution() == PGBOARD_BOARD_UNSETTLED);
                EXPECT(post(7, 0, choices, 0, choices, 0) == PGBOARD_POST_SHAPE && opens() == PGBOARD_BOARD_OPEN);
            }
        }
        EXPECT(run.steps > 10 && (size == 1 || run.steps == all));
        all = run.steps;
        is_as_finished();
        pgboard_board_close(&board);
    }
}

/* As many steps as tests/lib/plain.py says, seven in each call. */
static void takes_many_steps(void)
{
    ladder(26), solves();
    EXPECT(opens() == PGBOARD_OK), begins();
    while (!advances_by(7))
        continue;
    EXPECT(run.steps == STEPS_OF_26_LEVELS);
    is_as_finished();
    pgboard_board_close(&board);
}

/* Each allocation of a call is refused, with all after it. What is settled stays, and the next call begins anew. The call asks for memory
 * before its first step, and if it settles all also after its last one: only then it has taken steps. Returns how many were refused. */
static long refuses_memory_of(uint64_t call)
{
    uint64_t left[200], given = 5;
    for (long refused = 0;; refused++) {
        if (refused == 200)
            exit(2);
        pgboard_board_close(&board);
        EXPECT(opens() == PGBOARD_OK), begins();
        for (uint64_t k = 0; k < call; k++)
            EXPECT(!advances_by(1));
        struct view before = view(), after;
        steps = given, allowed = refused + 1;
        uint32_t answer = advances();
        allowed = -1;
        after = view(), left[refused] = steps;
        EXPECT(steps <= given && is_kept(&before, &after));
        for (long k = 0; k < refused && answer != PGBOARD_MEMORY; k++)
            EXPECT(left[k] == given || (answer == PGBOARD_OK && left[k] == steps));
        if (answer != PGBOARD_MEMORY)
            return refused;
        EXPECT(report.at == 0 && report.to == 0);
        begins();
        while (!advances_by(3))
            continue;
        is_as_finished();
    }
}

static void refuses_memory(int games)
{
    uint64_t seed = 3;
    long refused = 0;
    for (int k = 0; k < games; k++) {
        if (k == 0)
            seven();
        else
            some_game(&seed);
        solves();
        EXPECT(opens() == PGBOARD_OK), begins();
        while (!advances_by(1))
            continue;
        uint64_t calls = run.calls;
        /* the first call, the last two, and one between */
        uint64_t which[] = {0, drawn(&seed, calls), calls - 1, calls > 1 ? calls - 2 : 0};
        for (int it = 0; it < 4; it++)
            refused += refuses_memory_of(which[it]);
        pgboard_board_close(&board);
    }
    EXPECT(refused > 10 * games);
}

int main(int argc, char **argv)
{
    long games = argc > 1 ? strtol(argv[1], NULL, 10) : FEW;
    takes_no_step_too_many();
    goes_on_where_it_was(games < FEW ? 4 : 40);
    takes_many_steps();
    finishes_random_games(games);
    refuses_memory(games < FEW ? 2 : 20);
    printf("%d passed, %d failed\n", passed, failed);
    return failed != 0;
}
