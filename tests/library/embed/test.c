/* Goes through the calls of include/pgboard.h: each answer, what is reported beside it, and that nothing else is written.
 * The last line is 'N passed, M failed'. Linked with -Wl,--wrap=malloc,--wrap=realloc, so that memory can be refused. */
#include <stdio.h>
#include <stdlib.h>
#include <string.h>

#include "expect.h"
#include "pgboard.h"

#define MOST 70000

/* The arrays that the calls get, each with a length of its own, and the sizes that the structs say. */
struct arrays {
    uint8_t owners[MOST], winners[MOST], known_winners[MOST];
    uint32_t priorities[MOST], starts[MOST + 1], targets[MOST], choices[MOST], known_choices[MOST];
    size_t owners_len, priorities_len, starts_len, targets_len, winners_len, choices_len, known_len, known_choices_len;
    size_t game_size, solution_size, results_size;
};
static struct arrays game, before;

static void set(size_t n, const char *owners, const uint32_t *priorities, const uint32_t *starts,
                const uint32_t *targets)
{
    memset(&game, 0, sizeof game);
    for (size_t v = 0; v < n; v++) {
        game.owners[v] = (uint8_t)(owners[v] - '0');
        game.priorities[v] = priorities[v];
    }
    memcpy(game.starts, starts, (n + 1) * sizeof *starts);
    memcpy(game.targets, targets, starts[n] * sizeof *targets);
    memset(game.winners, 77, sizeof game.winners);
    memset(game.choices, 77, sizeof game.choices);
    memset(game.known_winners, PGBOARD_NO_WINNER, sizeof game.known_winners);
    memset(game.known_choices, 77, sizeof game.known_choices);
    game.owners_len = game.priorities_len = game.winners_len = game.choices_len = n;
    game.known_len = game.known_choices_len = n;
    game.starts_len = n + 1;
    game.targets_len = starts[n];
    game.game_size = sizeof(struct pgboard_game);
    game.solution_size = sizeof(struct pgboard_solution);
    game.results_size = sizeof(struct pgboard_results);
}

static struct pgboard_report report;

/* The structs over these arrays. */
static struct pgboard_game arrays_of(void)
{
    struct pgboard_game it = {.size = game.game_size};
    it.owners = game.owners, it.owners_len = game.owners_len;
    it.priorities = game.priorities, it.priorities_len = game.priorities_len;
    it.starts = game.starts, it.starts_len = game.starts_len;
    it.targets = game.targets, it.targets_len = game.targets_len;
    return it;
}

static struct pgboard_results results_of(void)
{
    struct pgboard_results it = {.size = game.results_size};
    it.winners = game.winners, it.winners_len = game.winners_len;
    it.choices = game.choices, it.choices_len = game.choices_len;
    return it;
}

static struct pgboard_solution solution_of(const uint8_t *winners, size_t winners_len, const uint32_t *choices,
                                           size_t choices_len)
{
    struct pgboard_solution it = {.size = game.solution_size};
    it.winners = winners, it.winners_len = winners_len;
    it.choices = choices, it.choices_len = choices_len;
    return it;
}

static uint32_t solve(void)
{
    struct pgboard_game it = arrays_of();
    struct pgboard_results results = results_of(), same = results;
    report.at = report.to = 99;
    uint32_t answer = pgboard_solve(&it, &results, &report);
    return memcmp(&results, &same, sizeof same) == 0 ? answer : 99;
}

/* The most steps of solve_within and solve_known_within. */
static uint64_t steps = UINT64_MAX;

static uint32_t solve_within(void)
{
    struct pgboard_game it = arrays_of();
    struct pgboard_results results = results_of(), same = results;
    report.at = report.to = 99;
    uint32_t answer = pgboard_solve_within(&it, steps, &results, &report);
    return memcmp(&results, &same, sizeof same) == 0 ? answer : 99;
}

static uint32_t check(void)
{
    struct pgboard_game it = arrays_of();
    struct pgboard_solution solution = solution_of(game.winners, game.winners_len, game.choices, game.choices_len);
    report.at = report.to = 99;
    return pgboard_check(&it, &solution, &report);
}

static uint32_t solve_from(int is_within)
{
    struct pgboard_game it = arrays_of();
    struct pgboard_solution known =
        solution_of(game.known_winners, game.known_len, game.known_choices, game.known_choices_len);
    struct pgboard_results results = results_of(), same = results;
    report.at = report.to = 99;
    uint32_t answer = is_within ? pgboard_solve_known_within(&it, &known, steps, &results, &report)
                                : pgboard_solve_known(&it, &known, &results, &report);
    return memcmp(&results, &same, sizeof same) == 0 ? answer : 99;
}

static uint32_t solve_known(void)
{
    return solve_from(0);
}

static uint32_t solve_known_within(void)
{
    return solve_from(1);
}

/* Whether a call has this answer and reports this, and has changed nothing else. */
static int refuses(uint32_t (*call)(void), uint32_t answer, uint64_t at, uint64_t to)
{
    memcpy(&before, &game, sizeof game);
    return call() == answer && report.at == at && report.to == to && memcmp(&before, &game, sizeof game) == 0;
}

static int all_refuse(uint32_t answer, uint64_t at, uint64_t to)
{
    return refuses(solve, answer, at, to) && refuses(solve_within, answer, at, to) && refuses(check, answer, at, to) &&
           refuses(solve_known, answer, at, to) && refuses(solve_known_within, answer, at, to);
}

/* Even owns 0 and may stay there or go to 1; Odd owns 1 and stays. Even wins 0, Odd wins 1. */
static const uint32_t two_priorities[] = {2, 1}, two_starts[] = {0, 2, 3}, two_targets[] = {0, 1, 1};

static void two(void)
{
    set(2, "01", two_priorities, two_starts, two_targets);
}

static void solves(void)
{
    two();
    EXPECT(solve() == PGBOARD_OK && report.at == 0 && report.to == 0);
    EXPECT(game.winners[0] == 0 && game.winners[1] == 1 && game.winners[2] == 77);
    EXPECT(game.choices[0] == 0 && game.choices[1] == 1 && game.choices[2] == 77u * 0x01010101u);
    EXPECT(refuses(check, PGBOARD_OK, 0, 0));
    two();
    EXPECT(solve_within() == PGBOARD_OK && report.at == 0 && report.to == 0);
    EXPECT(game.winners[0] == 0 && game.winners[1] == 1 && game.winners[2] == 77);
    EXPECT(game.choices[0] == 0 && game.choices[1] == 1 && game.choices[2] == 77u * 0x01010101u);
    /* a choice where the winner isn't the owner has no effect, and is not written */
    game.owners[1] = 0;
    EXPECT(solve() == PGBOARD_OK && game.winners[1] == 1 && game.choices[1] == PGBOARD_NO_CHOICE);
    EXPECT(solve_known() == PGBOARD_OK && game.winners[1] == 1 && game.choices[1] == PGBOARD_NO_CHOICE);
    game.choices[1] = 4;
    EXPECT(refuses(check, PGBOARD_OK, 0, 0));
}

static void refuses_arrays(void)
{
    two();
    game.game_size--;
    game.priorities_len = 1; /* is looked at later */
    EXPECT(all_refuse(PGBOARD_SIZE, PGBOARD_STRUCT_GAME, sizeof(struct pgboard_game)));
    game.game_size++;
    game.starts_len = 2;
    EXPECT(all_refuse(PGBOARD_LENGTHS, PGBOARD_ARRAY_PRIORITIES, 0));
    game.priorities_len = 2;
    game.targets_len = 2;
    EXPECT(all_refuse(PGBOARD_LENGTHS, PGBOARD_ARRAY_STARTS, 0));
    game.starts_len = 3;
    game.starts[0] = 1;
    EXPECT(all_refuse(PGBOARD_LENGTHS, PGBOARD_ARRAY_STARTS, 0));
    game.starts[0] = 0;
    EXPECT(all_refuse(PGBOARD_LENGTHS, PGBOARD_ARRAY_TARGETS, 0));
    two();
    game.starts[1] = 4;
    game.owners[0] = 2;
    EXPECT(all_refuse(PGBOARD_ROW, 0, 0));
    game.starts[1] = 2;
    EXPECT(all_refuse(PGBOARD_OWNER, 0, 0));
    two();
    game.owners[1] = 255;
    game.priorities[0] = PGBOARD_MAX_NUMBER + 1u;
    EXPECT(all_refuse(PGBOARD_OWNER, 1, 0));
    game.owners[1] = 1;
    EXPECT(all_refuse(PGBOARD_PRIORITY, 0, 0));
    game.priorities[0] = PGBOARD_MAX_NUMBER;
    EXPECT(solve() == PGBOARD_OK && game.winners[0] == 1);
}

/* The structs of results and of a solution, once the game is known. */
static void refuses_results(void)
{
    two();
    game.results_size = game.solution_size = 8;
    game.winners_len = game.known_len = 1;
    EXPECT(refuses(solve, PGBOARD_SIZE, PGBOARD_STRUCT_RESULTS, sizeof(struct pgboard_results)));
    EXPECT(refuses(solve_within, PGBOARD_SIZE, PGBOARD_STRUCT_RESULTS, sizeof(struct pgboard_results)));
    EXPECT(refuses(check, PGBOARD_SIZE, PGBOARD_STRUCT_SOLUTION, sizeof(struct pgboard_solution)));
    EXPECT(refuses(solve_known, PGBOARD_SIZE, PGBOARD_STRUCT_SOLUTION, sizeof(struct pgboard_solution)));
    game.solution_size = sizeof(struct pgboard_solution);
    EXPECT(refuses(check, PGBOARD_SOLUTION, PGBOARD_ARRAY_WINNERS, 0));
    EXPECT(refuses(solve_known, PGBOARD_SOLUTION, PGBOARD_ARRAY_WINNERS, 0));
    game.known_len = 2;
    EXPECT(refuses(solve_known, PGBOARD_SIZE, PGBOARD_STRUCT_RESULTS, sizeof(struct pgboard_results)));
    game.results_size = sizeof(struct pgboard_results);
    EXPECT(refuses(solve, PGBOARD_RESULTS, PGBOARD_ARRAY_WINNERS, 0));
    EXPECT(refuses(solve_within, PGBOARD_RESULTS, PGBOARD_ARRAY_WINNERS, 0));
    EXPECT(refuses(solve_known, PGBOARD_RESULTS, PGBOARD_ARRAY_WINNERS, 0));
    game.winners_len = 2;
    game.choices_len = 3;
    EXPECT(refuses(solve, PGBOARD_RESULTS, PGBOARD_ARRAY_CHOICES, 0));
    EXPECT(refuses(solve_within, PGBOARD_RESULTS, PGBOARD_ARRAY_CHOICES, 0));
    EXPECT(refuses(check, PGBOARD_SOLUTION, PGBOARD_ARRAY_CHOICES, 0));
    EXPECT(refuses(solve_known, PGBOARD_RESULTS, PGBOARD_ARRAY_CHOICES, 0));
    game.known_winners[1] = 2;
    EXPECT(refuses(solve_known, PGBOARD_WINNER, 1, 0));
    game.known_choices_len = 1;
    EXPECT(refuses(solve_known, PGBOARD_SOLUTION, PGBOARD_ARRAY_CHOICES, 0));
    /* what is known is looked at once the results fit */
    two();
    game.known_winners[0] = 0;
    game.choices_len = 3;
    EXPECT(refuses(solve_known, PGBOARD_RESULTS, PGBOARD_ARRAY_CHOICES, 0));
}

/* What is known of the two vertices, and the answer and what is reported. */
static int known(unsigned first, uint32_t choice, unsigned second, uint32_t other, uint32_t answer, uint64_t at,
                 uint64_t to)
{
    game.known_winners[0] = (uint8_t)first, game.known_choices[0] = choice;
    game.known_winners[1] = (uint8_t)second, game.known_choices[1] = other;
    if (answer != PGBOARD_OK)
        return refuses(solve_known, answer, at, to) && refuses(solve_known_within, answer, at, to);
    int solved = 1;
    for (int is_within = 0; is_within < 2; is_within++) {
        memset(game.winners, 77, sizeof game.winners);
        memset(game.choices, 77, sizeof game.choices);
        solved = solved && solve_from(is_within) == PGBOARD_OK && report.at == 0 && report.to == 0;
    }
    return solved && game.winners[0] == 0 && game.winners[1] == 1 && game.winners[2] == 77 && game.choices[0] == 0 &&
           game.choices[1] == 1 && game.choices[2] == 77u * 0x01010101u && refuses(check, PGBOARD_OK, 0, 0);
}

static void takes_what_is_known(void)
{
    const uint32_t none = PGBOARD_NO_CHOICE, open = PGBOARD_NO_WINNER;
    two();
    EXPECT(known(open, none, open, none, PGBOARD_OK, 0, 0));
    EXPECT(known(open, 7, open, 7, PGBOARD_OK, 0, 0)); /* a choice without a winner has no effect */
    EXPECT(known(0, 0, open, none, PGBOARD_OK, 0, 0));
    EXPECT(known(open, none, 1, 1, PGBOARD_OK, 0, 0));
    EXPECT(known(0, 0, 1, 1, PGBOARD_OK, 0, 0));
    EXPECT(known(open, none, 2, 1, PGBOARD_WINNER, 1, 0));
    EXPECT(known(254, none, 2, 1, PGBOARD_WINNER, 0, 0));
    EXPECT(known(0, none, 1, none, PGBOARD_KNOWN_CHOICE, 0, 0));
    EXPECT(known(0, 2, 1, none, PGBOARD_KNOWN_CHOICE, 0, 0));
    EXPECT(known(0, 0, 1, 0, PGBOARD_KNOWN_CHOICE, 1, 0));
    EXPECT(known(0, 1, open, none, PGBOARD_KNOWN_LEAVES, 0, 1));
    EXPECT(known(1, 7, open, none, PGBOARD_KNOWN_CYCLE, 0, 0)); /* Odd doesn't own it, so its choice has no effect */
    EXPECT(known(open, none, 0, none, PGBOARD_KNOWN_CYCLE, 1, 0));
    /* Odd's vertex 1 may leave to vertex 0, which Even wins: Even attracts it where it has no other way */
    static const uint32_t priorities[] = {2, 1}, starts[] = {0, 1, 2}, targets[] = {0, 0};
    set(2, "01", priorities, starts, targets);
    EXPECT(known(0, 0, 1, 0, PGBOARD_KNOWN_LOST, 1, 0));
    EXPECT(known(open, none, 1, 0, PGBOARD_KNOWN_LEAVES, 1, 0));
    /* what is wrong with Even's vertices comes first, also before a choice of Odd that is wrong */
    static const uint32_t odd_priorities[] = {1, 1}, loops[] = {0, 1};
    set(2, "01", odd_priorities, starts, loops);
    EXPECT(known(0, 0, 1, none, PGBOARD_KNOWN_CYCLE, 0, 0));
    EXPECT(known(open, none, 1, none, PGBOARD_KNOWN_CHOICE, 1, 0));
}

/* Even wins by both ways from vertex 0, and keeps the one that is known. */
static void keeps_a_known_choice(void)
{
    static const uint32_t priorities[] = {0, 0, 0}, starts[] = {0, 2, 3, 4}, targets[] = {1, 2, 0, 0};
    for (uint32_t way = 1; way <= 2; way++) {
        set(3, "000", priorities, starts, targets);
        game.known_winners[0] = game.known_winners[way] = 0;
        game.known_choices[0] = way, game.known_choices[way] = 0;
        EXPECT(solve_known() == PGBOARD_OK && game.choices[0] == way && refuses(check, PGBOARD_OK, 0, 0));
    }
}

/* Five vertices that no search before the recursion settles; all that is known is settled without a step. */
static void gives_up_from_what_is_known(void)
{
    static const uint32_t priorities[] = {0, 4, 2, 3, 5}, starts[] = {0, 1, 2, 4, 5, 7}, targets[] = {4, 4, 3, 2, 2, 1, 0};
    set(5, "11100", priorities, starts, targets);
    steps = 0;
    EXPECT(refuses(solve_known_within, PGBOARD_GAVE_UP, 0, 0));
    /* what is known is judged first */
    game.known_winners[1] = 1, game.known_choices[1] = 0;
    EXPECT(refuses(solve_known_within, PGBOARD_KNOWN_CHOICE, 1, 0));
    game.known_winners[1] = PGBOARD_NO_WINNER;
    EXPECT(solve_known() == PGBOARD_OK);
    memcpy(game.known_winners, game.winners, 5), memcpy(game.known_choices, game.choices, 5 * sizeof *game.choices);
    EXPECT(solve_known_within() == PGBOARD_OK && refuses(check, PGBOARD_OK, 0, 0));
    steps = UINT64_MAX;
}

static void refuses_games(void)
{
    two();
    game.owners_len = game.priorities_len = game.targets_len = 0;
    game.starts_len = 1;
    EXPECT(all_refuse(PGBOARD_NO_VERTEX, 0, 0));
    two();
    game.starts[1] = 0;
    EXPECT(all_refuse(PGBOARD_NO_SUCCESSOR, 0, 0));
    two();
    game.targets[1] = 2;
    game.targets[2] = 9;
    EXPECT(all_refuse(PGBOARD_UNKNOWN, 0, 2));
    game.targets[1] = 1;
    EXPECT(all_refuse(PGBOARD_UNKNOWN, 1, 9));
    /* a successor that stands twice, in any order, is one */
    two();
    game.targets[0] = 1;
    game.targets[1] = 0;
    EXPECT(solve() == PGBOARD_OK && game.winners[0] == 0 && game.choices[0] == 0);
}

static void refuses_solutions(void)
{
    two();
    EXPECT(solve() == PGBOARD_OK);
    game.winners[1] = 2;
    EXPECT(refuses(check, PGBOARD_WINNER, 1, 0));
    game.winners[1] = 1;
    game.choices[0] = PGBOARD_NO_CHOICE;
    EXPECT(refuses(check, PGBOARD_NO_CHOICE_AT, 0, 0));
    game.choices[0] = 2;
    EXPECT(refuses(check, PGBOARD_BAD_CHOICE, 0, 0));
    game.choices[0] = 1;
    EXPECT(refuses(check, PGBOARD_LEAVES, 0, 1));
    game.winners[1] = 0;
    EXPECT(refuses(check, PGBOARD_CYCLE, 1, 0));
}

typedef uint32_t writer(const uint8_t *, size_t, uint8_t *, size_t, size_t *, struct pgboard_report *);

static int is_untouched(const uint8_t *bytes, size_t size)
{
    for (size_t k = 0; k < size; k++)
        if (bytes[k] != 77)
            return 0;
    return 1;
}

static int text_refuses(writer *call, const char *text, size_t capacity, uint32_t answer, uint64_t at, uint64_t to)
{
    uint8_t into[64];
    size_t size = 99;
    memset(into, 77, sizeof into);
    report.at = report.to = 99;
    return call((const uint8_t *)text, strlen(text), into, capacity, &size, &report) == answer && report.at == at &&
           report.to == to && size == 99 && is_untouched(into, sizeof into);
}

/* A text is written into a buffer of its size and into a longer one, where nothing behind it changes. */
static int writes(writer *call, const char *text, const char *wanted)
{
    uint8_t into[64];
    size_t size = strlen(wanted);
    for (size_t capacity = size; capacity <= sizeof into; capacity += sizeof into - size) {
        size_t written = 99;
        memset(into, 77, sizeof into);
        report.at = report.to = 99;
        if (call((const uint8_t *)text, strlen(text), into, capacity, &written, &report) != PGBOARD_OK || report.at != 0 ||
            report.to != 0 || written != size || memcmp(into, wanted, size) != 0 ||
            !is_untouched(into + size, sizeof into - size))
            return 0;
    }
    return text_refuses(call, text, size - 1, PGBOARD_CAPACITY, size, 0);
}

static uint32_t verify(const char *text, const char *solution)
{
    report.at = report.to = 99;
    return pgboard_verify_text((const uint8_t *)text, strlen(text), (const uint8_t *)solution, strlen(solution), &report);
}

static int not_verified(const char *text, const char *solution, uint32_t answer, uint64_t at, uint64_t to)
{
    return verify(text, solution) == answer && report.at == at && report.to == to;
}

static const char *const GAME = "9 1 1 9; 3 2 0 3, 9 \"a name\";";

/* Whether what both calls write of a text of so many lines fits into the bound, with no byte beyond. */
static int is_bounded(const char *text)
{
    writer *const calls[] = {pgboard_solve_text, pgboard_tidy_text};
    size_t bound = PGBOARD_TEXT_BOUND(strlen(text)), size = 0;
    uint8_t *into = calloc(bound, 1);
    int holds = into != NULL;
    for (int k = 0; k < 2 && holds; k++)
        holds = calls[k]((const uint8_t *)text, strlen(text), into, bound, &size, &report) == PGBOARD_OK && size <= bound;
    free(into);
    return holds;
}

static void writes_within_the_bound(void)
{
    static char text[9 * 1000];
    char *end = text;
    EXPECT(is_bounded("2147483647 2147483647 1 2147483647;"));
    for (unsigned v = 0; v < 10; v++)
        end += sprintf(end, "%u 0 0 %u;", v, v);
    EXPECT(is_bounded(text));
    for (unsigned v = 10; v < 500; v++)
        end += sprintf(end, "%u 0 0 0;", v);
    EXPECT(is_bounded(text));
}

static void takes_texts(void)
{
    writes_within_the_bound();
    EXPECT(writes(pgboard_solve_text, GAME, "paritysol 9;\n3 0 3;\n9 1 9;\n"));
    EXPECT(writes(pgboard_tidy_text, GAME, "parity 9;\n3 2 0 3,9;\n9 1 1 9;\n"));
    EXPECT(verify(GAME, "9 1 9; 3 0 3;") == PGBOARD_OK && report.at == 0 && report.to == 0);
}

static void refuses_texts(void)
{
    static const struct {
        const char *text;
        uint32_t answer;
        uint64_t at, to;
    } bad[] = {
        {"0 0 0 ?;", PGBOARD_GAME_LEXICAL, 6, 0},         {"0 0 0 0", PGBOARD_GAME_SYNTAX, 7, 0},
        {"0 4294967296 0 0;", PGBOARD_GAME_NUMBER, 2, 0}, {"0 0 2 0;", PGBOARD_GAME_OWNER, 4, 0},
        {"7 0 0 7; 7 1 1 7;", PGBOARD_TWICE, 7, 0},       {"7 0 0 7,8;", PGBOARD_UNKNOWN, 7, 8},
    };
    for (size_t k = 0; k < sizeof bad / sizeof *bad; k++) {
        EXPECT(text_refuses(pgboard_solve_text, bad[k].text, 64, bad[k].answer, bad[k].at, bad[k].to));
        EXPECT(text_refuses(pgboard_tidy_text, bad[k].text, 64, bad[k].answer, bad[k].at, bad[k].to));
        EXPECT(not_verified(bad[k].text, "", bad[k].answer, bad[k].at, bad[k].to));
    }
    EXPECT(not_verified(GAME, "3 0 ?", PGBOARD_SOLUTION_LEXICAL, 4, 0));
    EXPECT(not_verified(GAME, "3 0", PGBOARD_SOLUTION_SYNTAX, 3, 0));
    EXPECT(not_verified(GAME, "3 4294967296;", PGBOARD_SOLUTION_NUMBER, 2, 0));
    EXPECT(not_verified(GAME, "3 2;", PGBOARD_SOLUTION_WINNER, 2, 0));
    EXPECT(not_verified(GAME, "4 0;", PGBOARD_SOLUTION_STRANGER, 4, 0));
    EXPECT(not_verified(GAME, "3 0 3; 3 0 3;", PGBOARD_SOLUTION_TWICE, 3, 0));
    EXPECT(not_verified(GAME, "3 0 3;", PGBOARD_SOLUTION_MISSING, 9, 0));
    EXPECT(not_verified(GAME, "3 0; 9 1 9;", PGBOARD_NO_CHOICE_AT, 3, 0));
    EXPECT(not_verified(GAME, "3 0 9; 9 1 9;", PGBOARD_LEAVES, 3, 9));
}

/* Texts behind the limit are refused by their length, and never read. */
static void refuses_long_texts(void)
{
    size_t size = PGBOARD_MAX_TEXT + 1u;
    uint8_t *text = calloc(size, 1);
    uint8_t into[1];
    size_t written;
    EXPECT(text != NULL);
    EXPECT(pgboard_solve_text(text, size, into, 0, &written, &report) == PGBOARD_GAME_TOO_LONG && report.at == 0 &&
           report.to == 0);
    EXPECT(pgboard_tidy_text(text, size, into, 0, &written, &report) == PGBOARD_GAME_TOO_LONG);
    EXPECT(pgboard_verify_text(text, size, text, 0, &report) == PGBOARD_GAME_TOO_LONG);
    EXPECT(pgboard_verify_text((const uint8_t *)GAME, strlen(GAME), text, size, &report) == PGBOARD_SOLUTION_TOO_LONG);
    free(text);
}

#define LAST (MOST - 1)

/* A game of 70,000 vertices, each with an edge to itself alone: Even owns and wins all. */
static void many(void)
{
    static char owners[MOST];
    static uint32_t priorities[MOST], places[MOST + 1];
    memset(owners, '0', sizeof owners);
    for (uint32_t v = 0; v <= MOST; v++)
        places[v] = v;
    set(MOST, owners, priorities, places, places);
}

/* The last vertex of many is at fault. */
static void refuses_the_last_of_many(void)
{
    many();
    game.targets_len--;
    EXPECT(all_refuse(PGBOARD_LENGTHS, PGBOARD_ARRAY_TARGETS, 0));
    game.targets_len++;
    game.owners[LAST] = 2;
    EXPECT(all_refuse(PGBOARD_OWNER, LAST, 0));
    game.owners[LAST] = 0;
    game.priorities[LAST] = 2147483648u;
    EXPECT(all_refuse(PGBOARD_PRIORITY, LAST, 0));
    game.priorities[LAST] = 0;
    game.targets[LAST] = MOST;
    EXPECT(all_refuse(PGBOARD_UNKNOWN, LAST, MOST));
    game.starts[LAST] = MOST;
    EXPECT(all_refuse(PGBOARD_NO_SUCCESSOR, LAST, 0));
    game.starts[LAST] = MOST + 1;
    EXPECT(all_refuse(PGBOARD_ROW, LAST - 1, 0));
    many();
    game.choices_len = game.known_choices_len = LAST;
    EXPECT(refuses(solve, PGBOARD_RESULTS, PGBOARD_ARRAY_CHOICES, 0));
    EXPECT(refuses(check, PGBOARD_SOLUTION, PGBOARD_ARRAY_CHOICES, 0));
    EXPECT(refuses(solve_known, PGBOARD_SOLUTION, PGBOARD_ARRAY_CHOICES, 0));
    many();
    EXPECT(solve() == PGBOARD_OK && game.winners[LAST] == 0 && game.choices[LAST] == LAST);
    EXPECT(refuses(check, PGBOARD_OK, 0, 0));
    game.choices[LAST] = PGBOARD_NO_CHOICE;
    EXPECT(refuses(check, PGBOARD_NO_CHOICE_AT, LAST, 0));
    game.choices[LAST] = 0;
    EXPECT(refuses(check, PGBOARD_BAD_CHOICE, LAST, 0));
    game.winners[LAST] = 1;
    EXPECT(refuses(check, PGBOARD_CYCLE, LAST, 0));
    game.targets[LAST] = 0;
    EXPECT(refuses(check, PGBOARD_LEAVES, LAST, 0));
    game.winners[LAST] = 2;
    EXPECT(refuses(check, PGBOARD_WINNER, LAST, 0));
}

/* What is known of the last vertex of many is at fault. */
static void takes_what_is_known_of_many(void)
{
    many();
    game.known_winners[LAST] = 2;
    EXPECT(refuses(solve_known, PGBOARD_WINNER, LAST, 0));
    game.known_winners[LAST] = 0;
    EXPECT(refuses(solve_known, PGBOARD_KNOWN_CHOICE, LAST, 0));
    game.known_winners[LAST] = 1;
    EXPECT(refuses(solve_known, PGBOARD_KNOWN_CYCLE, LAST, 0));
    game.targets[LAST] = 0;
    EXPECT(refuses(solve_known, PGBOARD_KNOWN_LEAVES, LAST, 0));
    game.known_winners[0] = 0, game.known_choices[0] = 0;
    EXPECT(refuses(solve_known, PGBOARD_KNOWN_LOST, LAST, 0));
    game.known_winners[LAST] = PGBOARD_NO_WINNER;
    EXPECT(solve_known() == PGBOARD_OK && game.winners[LAST] == 0 && game.choices[LAST] == 0);
}

/* Writes a line for each of so many vertices, which has the vertex, `between` and the vertex again, and then a last one.
 * Returns the place of the last one. */
static size_t write_lines(char *into, uint32_t count, const char *between, const char *last)
{
    char *end = into;
    for (uint32_t v = 0; v < count; v++)
        end += sprintf(end, "%u%s%u;\n", v, between, v);
    strcpy(end, last);
    return (size_t)(end - into);
}

/* The last line of a text of 70,000 lines is at fault: at a byte of that line, or at an identifier. */
static void refuses_long_lists(void)
{
    static char text[20 * MOST], solution[20 * MOST];
    static const struct {
        const char *line;
        uint32_t answer;
        int is_place;
        uint64_t at, to;
    } games[] = {
        {"?", PGBOARD_GAME_LEXICAL, 1, 0, 0},
        {",", PGBOARD_GAME_SYNTAX, 1, 0, 0},
        {"2147483648 0 0 0;", PGBOARD_GAME_NUMBER, 1, 0, 0},
        {"70000 0 2 0;", PGBOARD_GAME_OWNER, 1, 8, 0},
        {"69999 0 0 0;", PGBOARD_TWICE, 0, LAST, 0},
        {"70000 0 0 70001;", PGBOARD_UNKNOWN, 0, MOST, MOST + 1},
    }, solutions[] = {
        {"?", PGBOARD_SOLUTION_LEXICAL, 1, 0, 0},
        {",", PGBOARD_SOLUTION_SYNTAX, 1, 0, 0},
        {"2147483648 0;", PGBOARD_SOLUTION_NUMBER, 1, 0, 0},
        {"70000 2;", PGBOARD_SOLUTION_WINNER, 1, 6, 0},
        {"70000 0;", PGBOARD_SOLUTION_STRANGER, 0, MOST, 0},
        {"69999 0;", PGBOARD_SOLUTION_TWICE, 0, LAST, 0},
    };
    static const struct {
        const char *vertex, *line;
        uint32_t answer;
        uint64_t to;
    } verdicts[] = {
        {"69999 0 0 69999;", "", PGBOARD_SOLUTION_MISSING, 0},
        {"69999 0 0 69999;", "69999 0;", PGBOARD_NO_CHOICE_AT, 0},
        {"69999 0 0 69999;", "69999 0 0;", PGBOARD_BAD_CHOICE, 0},
        {"69999 1 1 0;", "69999 1 0;", PGBOARD_LEAVES, 0},
        {"69999 1 0 69999;", "69999 0 69999;", PGBOARD_CYCLE, 0},
    };
    for (size_t k = 0; k < sizeof games / sizeof *games; k++) {
        uint64_t at = write_lines(text, MOST, " 0 0 ", games[k].line) * (size_t)games[k].is_place + games[k].at;
        EXPECT(text_refuses(pgboard_solve_text, text, 64, games[k].answer, at, games[k].to));
        EXPECT(text_refuses(pgboard_tidy_text, text, 64, games[k].answer, at, games[k].to));
        EXPECT(not_verified(text, "", games[k].answer, at, games[k].to));
    }
    size_t size = write_lines(text, MOST, " 0 0 ", "");
    EXPECT(text_refuses(pgboard_tidy_text, text, 64, PGBOARD_CAPACITY, size + strlen("parity 69999;\n"), 0));
    for (size_t k = 0; k < sizeof solutions / sizeof *solutions; k++) {
        size = write_lines(solution, MOST, " 0 ", solutions[k].line);
        EXPECT(not_verified(text, solution, solutions[k].answer, size * (size_t)solutions[k].is_place + solutions[k].at, 0));
    }
    solution[size] = 0;
    EXPECT(text_refuses(pgboard_solve_text, text, 64, PGBOARD_CAPACITY, size + strlen("paritysol 69999;\n"), 0));
    EXPECT(not_verified(text, solution, PGBOARD_OK, 0, 0));
    for (size_t k = 0; k < sizeof verdicts / sizeof *verdicts; k++) {
        write_lines(text, LAST, " 0 0 ", verdicts[k].vertex);
        write_lines(solution, LAST, " 0 ", verdicts[k].line);
        EXPECT(not_verified(text, solution, verdicts[k].answer, LAST, verdicts[k].to));
    }
}

/* Refuses each allocation of a call in turn, and counts those that made it answer so. */
static void refuses_memory(void)
{
    uint8_t into[64];
    long refused[8] = {0};
    for (long n = 1; n < 200; n++) {
        two();
        allowed = n;
        int ended = refuses(solve, PGBOARD_MEMORY, 0, 0);
        refused[0] += ended;
        allowed = -1;
        EXPECT(ended || (solve() == PGBOARD_OK && refuses(check, PGBOARD_OK, 0, 0)));
        EXPECT(solve() == PGBOARD_OK);
        allowed = n;
        refused[6] += refuses(solve_within, PGBOARD_MEMORY, 0, 0);
        allowed = n;
        refused[1] += refuses(check, PGBOARD_MEMORY, 0, 0);
        allowed = n;
        refused[2] += text_refuses(pgboard_solve_text, GAME, sizeof into, PGBOARD_MEMORY, 0, 0);
        allowed = n;
        refused[3] += not_verified(GAME, "9 1 9; 3 0 3;", PGBOARD_MEMORY, 0, 0);
        allowed = n;
        refused[4] += text_refuses(pgboard_tidy_text, GAME, sizeof into, PGBOARD_MEMORY, 0, 0);
        game.known_winners[0] = 0, game.known_choices[0] = 0;
        allowed = n;
        refused[5] += refuses(solve_known, PGBOARD_MEMORY, 0, 0);
        allowed = n;
        refused[7] += refuses(solve_known_within, PGBOARD_MEMORY, 0, 0);
        allowed = -1;
    }
    for (int k = 0; k < 8; k++)
        EXPECT(1 < refused[k] && refused[k] < 190);
}

/* The answer for a game of n vertices, whose rows begin at places that are `degree` apart; with one edge each, priorities rise. */
static uint32_t large(size_t n, size_t degree)
{
    uint32_t *priorities = calloc(n, 4), *starts = calloc(n + 1, 4), *targets = calloc(n * degree, 4),
             *choices = calloc(n, 4);
    uint8_t *owners = calloc(n, 1), *winners = calloc(n, 1);
    if (!priorities || !starts || !targets || !choices || !owners || !winners)
        exit(2);
    for (size_t v = 0; v < n; v++) {
        priorities[v] = degree == 1 ? (uint32_t)v : 0;
        starts[v + 1] = (uint32_t)((v + 1) * degree);
        for (size_t k = 0; k < degree; k++)
            targets[v * degree + k] = (uint32_t)k;
    }
    struct pgboard_game it = {.size = sizeof it, .owners = owners, .owners_len = n, .priorities = priorities, .priorities_len = n,
                              .starts = starts, .starts_len = n + 1, .targets = targets, .targets_len = n * degree};
    struct pgboard_results results = {.size = sizeof results, .winners = winners, .winners_len = n, .choices = choices, .choices_len = n};
    uint32_t answer = pgboard_solve(&it, &results, &report);
    free(priorities), free(starts), free(targets), free(choices), free(owners), free(winners);
    return answer;
}

/* The greatest games, of which one has a priority for each vertex, and games one past each limit. */
static void refuses_large_games(void)
{
    size_t n = 1, vertices = PGBOARD_MAX_VERTICES, edges = PGBOARD_MAX_EDGES;
    while (n * n <= edges)
        n++;
    EXPECT(large(vertices + 1, 1) == PGBOARD_TOO_MANY_VERTICES && report.at == 0 && report.to == 0);
    EXPECT(large(n, n) == PGBOARD_TOO_MANY_EDGES && report.at == 0 && report.to == 0);
    EXPECT(large(n - 1, n - 1) == PGBOARD_OK);
    EXPECT(large(vertices, 1) == PGBOARD_OK);
}

/* The version is the header's, and each answer has a text of its own. */
static void tells_versions_and_texts(void)
{
    char version[32];
    snprintf(version, sizeof version, "%d.%d.%d", PGBOARD_VERSION_MAJOR, PGBOARD_VERSION_MINOR, PGBOARD_VERSION_PATCH);
    EXPECT(pgboard_version() == PGBOARD_VERSION && strcmp(pgboard_version_string(), version) == 0);
    const char *other = pgboard_strerror(99);
    for (uint32_t answer = 0; answer < 99; answer++)
        for (uint32_t before = 0; before < answer; before++)
            EXPECT(pgboard_strerror(answer) == other ||
                   strcmp(pgboard_strerror(answer), pgboard_strerror(before)) != 0);
}

/* A text is copied with its zero byte where it fits, and nothing else is written. */
static void copies_texts(void)
{
    for (uint32_t answer = 0; answer <= 100; answer++) {
        const char *wanted = answer < 100 ? pgboard_strerror(answer) : pgboard_version_string();
        size_t size = strlen(wanted) + 1;
        for (size_t into_len = size - 1; into_len <= size + 1; into_len++) {
            char into[128], same[128];
            memset(same, 77, sizeof same);
            memcpy(into, same, sizeof into);
            if (into_len >= size)
                memcpy(same, wanted, size);
            EXPECT((answer < 100 ? pgboard_copy_answer_text(answer, into, into_len) : pgboard_copy_version_text(into, into_len)) == size);
            EXPECT(memcmp(into, same, sizeof same) == 0);
        }
    }
}

int main(void)
{
    solves();
    refuses_arrays();
    refuses_results();
    refuses_games();
    refuses_solutions();
    takes_what_is_known();
    keeps_a_known_choice();
    gives_up_from_what_is_known();
    tells_versions_and_texts();
    copies_texts();
    takes_texts();
    refuses_texts();
    refuses_long_texts();
    refuses_the_last_of_many();
    takes_what_is_known_of_many();
    refuses_long_lists();
    refuses_memory();
    refuses_large_games();
    printf("%d passed, %d failed\n", passed, failed);
    return failed != 0;
}
