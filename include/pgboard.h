/* pgboard solves max-parity games and checks solutions, for programs with games in memory.
 *
 * Each call with a `report` returns a number: 0, or one of those below. If it is 0, both fields of `report` are 0. Else `report` says
 * where the fault is, and the call writes nothing but `report`; pgboard_board_advance may have written more. No pointer may be
 * null, even with length 0: the proofs take a pointer and a length as an array, and each array has an address. No array or struct
 * that a call writes may overlap another.
 *
 * The calls start no thread, wait for nothing and keep nothing but open boards. Several threads may make calls at once. They may
 * share what a call only reads, such as a game; each needs its own results and report, and its turn at a board. No thread may
 * change an array or a struct during a call that reads it. Make no call in a signal handler, or in the forked child of a process
 * with threads. Memory comes from the program's malloc, realloc and free, which have to be of one allocator.
 *
 * The header is C89, with the types of stdint.h, and C++. */
#ifndef PGBOARD_H
#define PGBOARD_H

#include <stddef.h>
#include <stdint.h>

/* A call whose answer has to be used, and whose pointers are not null. */
#if defined(__GNUC__) || defined(__clang__)
#define PGBOARD_CALL __attribute__((warn_unused_result, nonnull))
#else
#define PGBOARD_CALL
#endif
#if defined(__cplusplus)
#define PGBOARD_INLINE inline
#elif defined(__STDC_VERSION__) && __STDC_VERSION__ >= 199901L
#define PGBOARD_INLINE static inline
#elif defined(__GNUC__)
#define PGBOARD_INLINE static __inline__
#else
#define PGBOARD_INLINE static
#endif

#ifdef __cplusplus
extern "C" {
#endif

/* The version of this header. */
#define PGBOARD_VERSION_MAJOR 0
#define PGBOARD_VERSION_MINOR 1
#define PGBOARD_VERSION_PATCH 0
#define PGBOARD_VERSION (PGBOARD_VERSION_MAJOR * 10000 + PGBOARD_VERSION_MINOR * 100 + PGBOARD_VERSION_PATCH)

/* The version of the linked library, in the form of PGBOARD_VERSION. A library that was built without proofs also has a constant
 * pgboard_unproved, a C string with what it is and of which commit. */
uint32_t pgboard_version(void);

/* The limits: vertices and edges of a game, where two edges from a vertex to the same successor are one; priorities, and
 * identifiers in texts; and the bytes of a text. */
#define PGBOARD_MAX_VERTICES 1048576u
#define PGBOARD_MAX_EDGES 16777216u
#define PGBOARD_MAX_NUMBER 2147483647u
#define PGBOARD_MAX_TEXT 268435456u

/* A size that suffices for what pgboard_solve_text and pgboard_tidy_text write of a game's text with so many bytes. */
#define PGBOARD_TEXT_BOUND(game_len) ((size_t)(game_len) + (size_t)(game_len) / 8 + 22)

/* In `choices`: no choice. In `winners` of what is known: an unknown winner. In those of a board's state: an unsettled vertex. */
#define PGBOARD_NO_CHOICE 4294967295u
#define PGBOARD_NO_WINNER 255u

/* The answers; pgboard_strerror has a text for each. In brackets are the fields of `report`, `at` and then `to`. A field
 * without a name there is 0. A call reports the first fault. It looks at the game, then at the solution or at what is known,
 * then at the struct for results, and at last at what the solution or the known choices mean. In a text the faults of its format
 * come first, and of each kind the first in the text (docs/FORMATS.md has their order). All others have the order below, for the
 * least vertex and then the least successor, or as the brackets say. */
#define PGBOARD_OK 0u
#define PGBOARD_MEMORY 1u

/* a struct and its arrays */
#define PGBOARD_SIZE 9u     /* (one of PGBOARD_STRUCT_*, the size that this library takes) */
#define PGBOARD_LENGTHS 2u  /* (one of PGBOARD_ARRAY_*: the first that does not fit those before it) */
#define PGBOARD_ROW 3u      /* (the vertex) */
#define PGBOARD_OWNER 4u    /* (the vertex) */
#define PGBOARD_PRIORITY 5u /* (the vertex) */
#define PGBOARD_SOLUTION 8u /* of struct pgboard_solution (one of PGBOARD_ARRAY_*) */
#define PGBOARD_WINNER 7u   /* (the vertex) */
#define PGBOARD_RESULTS 6u  /* of struct pgboard_results (one of PGBOARD_ARRAY_*) */

/* a game */
#define PGBOARD_NO_VERTEX 10u
#define PGBOARD_TOO_MANY_VERTICES 11u
#define PGBOARD_TWICE 12u        /* of texts alone (the vertex) */
#define PGBOARD_NO_SUCCESSOR 13u /* (the vertex) */
#define PGBOARD_TOO_MANY_EDGES 14u
#define PGBOARD_UNKNOWN 15u      /* (the vertex, the first such successor in its row) */

/* winners and choices */
#define PGBOARD_NO_CHOICE_AT 20u /* (the vertex) */
#define PGBOARD_BAD_CHOICE 21u   /* (the vertex) */
#define PGBOARD_LEAVES 22u       /* (from, to) */
#define PGBOARD_CYCLE 23u        /* (the vertex with that priority) */

/* what is known of a game: the faults of Even's vertices, and then of Odd's */
#define PGBOARD_KNOWN_CHOICE 60u /* (the vertex) */
#define PGBOARD_KNOWN_CYCLE 61u  /* (the vertex with that priority) */
#define PGBOARD_KNOWN_LOST 62u   /* (the vertex) */
#define PGBOARD_KNOWN_LEAVES 63u /* (from, to) */

/* the text of a game; places are bytes from 0 on */
#define PGBOARD_GAME_TOO_LONG 30u
#define PGBOARD_GAME_LEXICAL 31u /* (the place) */
#define PGBOARD_GAME_SYNTAX 32u  /* (the place; the length of the text if it ends too early) */
#define PGBOARD_GAME_NUMBER 33u  /* (the place) */
#define PGBOARD_GAME_OWNER 34u   /* (the place) */

/* the text of a solution */
#define PGBOARD_SOLUTION_TOO_LONG 40u
#define PGBOARD_SOLUTION_LEXICAL 41u  /* (the place) */
#define PGBOARD_SOLUTION_SYNTAX 42u   /* (the place) */
#define PGBOARD_SOLUTION_NUMBER 43u   /* (the place) */
#define PGBOARD_SOLUTION_WINNER 44u   /* (the place) */
#define PGBOARD_SOLUTION_STRANGER 45u /* (the identifier) */
#define PGBOARD_SOLUTION_TWICE 46u    /* (the identifier) */
#define PGBOARD_SOLUTION_MISSING 47u  /* (the identifier) */

/* the text, or the entry or vertex of a board, that a call writes */
#define PGBOARD_CAPACITY 50u /* (the size of the text; the number of rows or of successors) */

/* a board */
#define PGBOARD_BOARD_OPEN 70u      /* the board is open already */
#define PGBOARD_BOARD_CLOSED 71u    /* the board is not open */
#define PGBOARD_BOARD_ENTRY 72u     /* no entry has this number (the number of entries) */
#define PGBOARD_BOARD_UNSETTLED 73u /* the board is not full (the number of unsettled vertices) */
#define PGBOARD_BOARD_VERTEX 74u    /* no vertex has this number (the number of vertices) */

/* a claim that is posted */
#define PGBOARD_POST_PLAYER 80u  /* the player is neither 0 nor 1 (the player) */
#define PGBOARD_POST_LENGTHS 81u /* the arrays have two lengths (that of the vertices, that of the choices) */
#define PGBOARD_POST_SHAPE 82u   /* the first wrong row: its vertex is not in the game or not above the one before it, or it
                                  * does not have a successor as choice exactly where the player owns the vertex; or there is no
                                  * row (the row from 0; 0 without rows) */
#define PGBOARD_POST_CYCLE 83u   /* the greatest priority on a closed walk in the claim is the opponent's (the vertex with it) */
#define PGBOARD_POST_LOST 84u    /* a vertex is settled for the opponent (the vertex) */
#define PGBOARD_POST_STALE 85u   /* all vertices are settled for the player */
#define PGBOARD_POST_OPEN 86u    /* an edge of the opponent, or a choice, leads from an unsettled vertex of the claim to one
                                  * that is neither in the claim nor settled for the player (from, to) */

/* a bound on the recursion */
#define PGBOARD_GAVE_UP 90u /* it needs more steps than the call allows */

/* The array or struct of an answer. */
#define PGBOARD_ARRAY_PRIORITIES 1u
#define PGBOARD_ARRAY_STARTS 2u
#define PGBOARD_ARRAY_TARGETS 3u
#define PGBOARD_ARRAY_WINNERS 4u
#define PGBOARD_ARRAY_CHOICES 5u
#define PGBOARD_STRUCT_GAME 1u
#define PGBOARD_STRUCT_SOLUTION 2u
#define PGBOARD_STRUCT_RESULTS 3u
#define PGBOARD_STRUCT_CLAIM 4u

/* The report of a call, beside its answer. This struct, `posted`, `entry` and `vertex` have no `size`: a call writes the whole of each,
 * so a later version that says more has a call of its own for it. */
struct pgboard_report {
    uint64_t at;
    uint64_t to;
};

/* A max-parity game of n vertices, 0 to n - 1: owners (0 Even, 1 Odd) and priorities of each, and the successors of v in
 * targets[starts[v]], up to and without targets[starts[v + 1]]; so starts has n + 1 entries, from 0 to the number of
 * targets. The `size` of a struct is its sizeof, so that a later version can take programs of this one. */
struct pgboard_game {
    size_t size;
    const uint8_t *owners;
    size_t owners_len;
    const uint32_t *priorities;
    size_t priorities_len;
    const uint32_t *starts;
    size_t starts_len;
    const uint32_t *targets;
    size_t targets_len;
};

/* Winners (0 Even, 1 Odd) and choices of all vertices, for a check. A choice at a vertex that its winner does not own has
 * no effect. */
struct pgboard_solution {
    size_t size;
    const uint8_t *winners;
    size_t winners_len;
    const uint32_t *choices;
    size_t choices_len;
};

/* The arrays for results: each vertex's winner, and his choice if he owns it, else PGBOARD_NO_CHOICE. */
struct pgboard_results {
    size_t size;
    uint8_t *winners;
    size_t winners_len;
    uint32_t *choices;
    size_t choices_len;
};

/* Solves a game. */
PGBOARD_CALL
uint32_t pgboard_solve(const struct pgboard_game *game, struct pgboard_results *results, struct pgboard_report *report);

/* The same as pgboard_solve, with a limit on the recursion: the answer is PGBOARD_GAVE_UP if it needs more steps. A step begins a
 * subgame. With at least 3 * (n + 1)^d - 2 or 3 * 2^n - 2 steps, for n vertices of d different priorities, no call gives up: a million
 * vertices of three priorities need fewer than 3.1 * 10^18. Tests show when a call gives up with fewer, and that the same call on the
 * same game needs the same number of steps each time. The searches before the recursion have bounds of their own. */
PGBOARD_CALL
uint32_t pgboard_solve_within(const struct pgboard_game *game, uint64_t steps, struct pgboard_results *results,
                              struct pgboard_report *report);

/* The same as pgboard_solve, from what is known, which is kept; PGBOARD_NO_WINNER is an unknown winner. What is known may come from any
 * source. Each player's known vertices have to be a set that he wins by his choices there, without leaving it. */
PGBOARD_CALL
uint32_t pgboard_solve_known(const struct pgboard_game *game, const struct pgboard_solution *known,
                             struct pgboard_results *results, struct pgboard_report *report);

/* The same with a limit, as of pgboard_solve_within, where n vertices are neither known nor attracted by a player to what is known of
 * his, and the game has d different priorities. What is known is judged first. */
PGBOARD_CALL
uint32_t pgboard_solve_known_within(const struct pgboard_game *game, const struct pgboard_solution *known, uint64_t steps,
                                    struct pgboard_results *results, struct pgboard_report *report);

/* Whether winners and choices are a solution of a game: PGBOARD_OK, or the first fault. */
PGBOARD_CALL
uint32_t pgboard_check(const struct pgboard_game *game, const struct pgboard_solution *solution,
                       struct pgboard_report *report);

/* Solves a game in PGSolver's format: writes the solution's text to the front of `into`, and its size. There is no zero
 * byte at the end. PGBOARD_TEXT_BOUND(game_len) bytes suffice, as tests show. Reports have the identifiers of vertices. */
PGBOARD_CALL
uint32_t pgboard_solve_text(const uint8_t *game, size_t game_len, uint8_t *into, size_t into_len, size_t *size,
                            struct pgboard_report *report);

/* The same with the game's one written form. */
PGBOARD_CALL
uint32_t pgboard_tidy_text(const uint8_t *game, size_t game_len, uint8_t *into, size_t into_len, size_t *size,
                           struct pgboard_report *report);

/* Whether a text is a solution of a game's text: PGBOARD_OK, or the first fault. Reports have the identifiers of
 * vertices. */
PGBOARD_CALL
uint32_t pgboard_verify_text(const uint8_t *game, size_t game_len, const uint8_t *solution, size_t solution_len,
                             struct pgboard_report *report);

/* A board: a game, and a winner and a choice of each vertex that is settled so far. Solvers of any kind post on it what they
 * find: claims that a player wins some vertices by his choices there. The board checks each claim. It refuses what does not hold,
 * and else settles the claim's unsettled vertices and all further ones from which the player forces a play to his settled ones.
 * So each settled vertex has its right winner, whatever is posted, by whom and in which order. Each post that settles something
 * is an entry of the board's journal. Entries are numbered from 0.
 *
 * The struct is PGBOARD_BOARD before the first call, or zero, which is the same: a closed board. Never look into it. To move an open
 * board, copy its struct and set the old one to PGBOARD_BOARD: an open board may not have two. After any answer but PGBOARD_OK the
 * board is unchanged, except after pgboard_board_advance. No two calls may use a board at once, not even calls that only read, since
 * each takes the board out of the struct meanwhile. So they all take a pointer to a struct that is not const. Threads that share a
 * board take turns:
 *
 *     static pthread_mutex_t turn = PTHREAD_MUTEX_INITIALIZER;
 *     pthread_mutex_lock(&turn);
 *     answer = pgboard_board_post(&board, &claim, &posted, &report);
 *     pthread_mutex_unlock(&turn);
 *
 * (The struct is the caller's, and no pointer to one that the library makes: no call of the library returns a pointer.) */
struct pgboard_board {
    void *at;
    unsigned char live;
};
#ifdef __cplusplus
#define PGBOARD_BOARD {}
#else
#define PGBOARD_BOARD {0, 0}
#endif

/* A claim: the player (0 Even, 1 Odd) wins these vertices, which rise, by these choices. A choice is a successor where the player
 * owns the vertex, and else PGBOARD_NO_CHOICE. It need not be closed: it may lead to what is settled for the player. `worker` is
 * a number of the program's own, which the entry keeps. */
struct pgboard_claim {
    size_t size;
    uint32_t worker;
    uint32_t player;
    const uint32_t *vertices;
    size_t vertices_len;
    const uint32_t *choices;
    size_t choices_len;
};

/* A post: its entry's number, how many vertices of the claim were unsettled, and how many vertices it settles, these included. */
struct pgboard_posted {
    uint64_t entry;
    uint64_t claimed;
    uint64_t settled;
};

/* An entry: its worker and player, how many of its rows were claimed, which are the first, and how many rows it has. */
struct pgboard_entry {
    uint32_t worker;
    uint32_t player;
    uint64_t claimed;
    uint64_t rows;
};

/* A vertex of a board's game: its identifier, its priority, its owner (0 Even, 1 Odd), and how many successors it has. */
struct pgboard_vertex {
    uint32_t id;
    uint32_t priority;
    uint32_t owner;
    uint32_t successors;
};

/* Opens a board of a game, on which nothing is settled. The game is copied. The faults are PGBOARD_BOARD_OPEN, those of a
 * game and PGBOARD_MEMORY. */
PGBOARD_CALL
uint32_t pgboard_board_open(struct pgboard_board *board, const struct pgboard_game *game, struct pgboard_report *report);

/* The same with a game in PGSolver's format. The board numbers the vertices from 0 on, in the order of their identifiers. The
 * faults are PGBOARD_BOARD_OPEN, which comes first, those of a game's text and PGBOARD_MEMORY. */
PGBOARD_CALL
uint32_t pgboard_board_open_text(struct pgboard_board *board, const uint8_t *game, size_t game_len, struct pgboard_report *report);

/* Posts a claim. The faults are PGBOARD_BOARD_CLOSED, PGBOARD_SIZE, those of a claim that is posted, and PGBOARD_MEMORY. A claim that
 * was found on an earlier state is posted too: vertices that are settled for the player by then are no fault, but for
 * PGBOARD_POST_STALE. */
PGBOARD_CALL
uint32_t pgboard_board_post(struct pgboard_board *board, const struct pgboard_claim *claim, struct pgboard_posted *posted,
                            struct pgboard_report *report);

/* Writes the winner and the choice of each settled vertex, and PGBOARD_NO_WINNER and PGBOARD_NO_CHOICE of the others. The
 * unsettled part is a game of its own: each of its vertices has a successor in it. The faults are PGBOARD_BOARD_CLOSED, PGBOARD_SIZE
 * and PGBOARD_RESULTS. */
PGBOARD_CALL
uint32_t pgboard_board_state(struct pgboard_board *board, struct pgboard_results *results, struct pgboard_report *report);

/* The number of vertices, of settled vertices, and of entries; 0 of a closed board. */
PGBOARD_CALL
uint64_t pgboard_board_vertices(struct pgboard_board *board);
PGBOARD_CALL
uint64_t pgboard_board_settled(struct pgboard_board *board);
PGBOARD_CALL
uint64_t pgboard_board_entries(struct pgboard_board *board);

/* Reads a vertex of the board's game: its numbers, and its successors at the front of the array. These are vertices, each once, and
 * rise. A vertex is a number from 0 on also where a text has other identifiers. The faults are PGBOARD_BOARD_CLOSED,
 * PGBOARD_BOARD_VERTEX, and PGBOARD_CAPACITY if the array is shorter than the successors. As many places as the game has vertices
 * suffice. */
PGBOARD_CALL
uint32_t pgboard_board_vertex(struct pgboard_board *board, uint32_t number, struct pgboard_vertex *vertex, uint32_t *successors,
                              size_t successors_len, struct pgboard_report *report);

/* Reads an entry: its numbers, and its rows at the front of the two arrays. The faults are PGBOARD_BOARD_CLOSED,
 * PGBOARD_BOARD_ENTRY, and PGBOARD_CAPACITY if an array is shorter than the rows. As many places as the game has vertices
 * suffice. */
PGBOARD_CALL
uint32_t pgboard_board_entry(struct pgboard_board *board, uint64_t number, struct pgboard_entry *entry, uint32_t *vertices,
                             size_t vertices_len, uint32_t *choices, size_t choices_len, struct pgboard_report *report);

/* Settles all vertices that are left, by posts of worker 0. Tests show that it makes the searches of pgboard_solve. The faults are
 * PGBOARD_BOARD_CLOSED and PGBOARD_MEMORY. */
PGBOARD_CALL
uint32_t pgboard_board_finish(struct pgboard_board *board, struct pgboard_report *report);

/* The same with a limit, as of pgboard_solve_within, where n vertices are unsettled, of d different priorities: PGBOARD_GAVE_UP is a
 * fault too. A full board needs no step. */
PGBOARD_CALL
uint32_t pgboard_board_finish_within(struct pgboard_board *board, uint64_t steps, struct pgboard_report *report);

/* Settles more of what is left, by posts of worker 0; tests show that they are those of pgboard_board_finish, in the same order. A
 * call makes one search or, after the last search, takes up to `*steps` steps of the recursion. It leaves in `*steps` the number
 * of steps that it did not take: a search takes none, and a call of the recursion that leaves something unsettled takes all, so a
 * program can bound their sum. The answer is PGBOARD_OK once all is settled, and before that PGBOARD_BOARD_UNSETTLED, which is no
 * fault here. What is settled stays, whatever the answer. The next call goes on where this one ended. If a post was accepted in between,
 * or memory was refused, it begins anew. So a program can do something else between two calls, or stop. Memory aside, a loop of
 * calls with at least one step each, and finitely many accepted posts between them, ends. The faults are PGBOARD_BOARD_CLOSED and
 * PGBOARD_MEMORY. */
PGBOARD_CALL
uint32_t pgboard_board_advance(struct pgboard_board *board, uint64_t *steps, struct pgboard_report *report);

/* Writes the solution of a full board, as pgboard_solve does. The faults are PGBOARD_BOARD_CLOSED, PGBOARD_SIZE and PGBOARD_RESULTS;
 * then PGBOARD_BOARD_UNSETTLED of a board that is not full, and PGBOARD_MEMORY. */
PGBOARD_CALL
uint32_t pgboard_board_solution(struct pgboard_board *board, struct pgboard_results *results, struct pgboard_report *report);

/* Writes the solution's text of a full board, as pgboard_solve_text does. The identifiers are those of the game's text; of a game in
 * arrays they are the vertices. PGBOARD_TEXT_BOUND(game_len) bytes suffice for a text's game, as tests show. The faults are
 * PGBOARD_BOARD_CLOSED, PGBOARD_BOARD_UNSETTLED, PGBOARD_CAPACITY and PGBOARD_MEMORY. */
PGBOARD_CALL
uint32_t pgboard_board_solution_text(struct pgboard_board *board, uint8_t *into, size_t into_len, size_t *size,
                                     struct pgboard_report *report);

/* Closes a board: frees it, if it is open. */
void pgboard_board_close(struct pgboard_board *board);

/* A text of the library, which stays as long as the program. It ends with a zero byte, which its length counts. */
struct pgboard_text {
    const char *bytes;
    size_t bytes_len;
};

/* The text of an answer, in English, and the version as a text. The caller's struct points to any text before, as "". */
void pgboard_answer_text(uint32_t answer, struct pgboard_text *text);
void pgboard_version_text(struct pgboard_text *text);

/* The same for languages that call no inline function: copies the text with its zero byte to the front of a buffer, if it fits,
 * and returns its size. If the size is above `into_len`, the buffer is unchanged. */
PGBOARD_CALL
size_t pgboard_copy_answer_text(uint32_t answer, char *into, size_t into_len);
PGBOARD_CALL
size_t pgboard_copy_version_text(char *into, size_t into_len);

/* The same as C strings. */
PGBOARD_INLINE const char *pgboard_strerror(uint32_t answer)
{
    struct pgboard_text text = {"", 0};
    pgboard_answer_text(answer, &text);
    return text.bytes;
}

PGBOARD_INLINE const char *pgboard_version_string(void)
{
    struct pgboard_text text = {"", 0};
    pgboard_version_text(&text);
    return text.bytes;
}

#ifdef __cplusplus
}
#endif

#endif
