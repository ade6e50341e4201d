/* Goes through the calls on boards and texts: what opens a board of a text, and what writes the solution of a full board. Each text and
 * each answer is compared with that of pgboard_solve_text, and each board with one of the same game in arrays. The last line is
 * 'N passed, M failed'. The argument is the number of random games. */
#include "expect.h"
#include "boards.h"

#define LONGEST 16384

static uint8_t text[LONGEST], right[LONGEST], into[LONGEST];
static size_t text_len, right_len, size;
static size_t into_len;

static uint32_t opens_text(void)
{
    return pgboard_board_open_text(&board, text, text_len, &report);
}

static uint32_t writes_solution(void)
{
    return pgboard_board_solution_text(&board, into, into_len, &size, &report);
}

static uint32_t solves_text(void)
{
    return pgboard_solve_text(text, text_len, into, into_len, &size, &report);
}

static void set_text(const char *spelled)
{
    text_len = strlen(spelled), memcpy(text, spelled, text_len);
}

static void adds(const char *form, unsigned number)
{
    text_len += (size_t)snprintf((char *)text + text_len, LONGEST - text_len, form, number);
}

/* The text of the game, with these identifiers, and its specifications in any order. */
static void spells(uint64_t *seed, const uint32_t *identifiers)
{
    uint32_t order[MOST];
    text_len = 0;
    if (drawn(seed, 2))
        adds("parity %u;\n", identifiers[n - 1]);
    for (uint32_t v = 0; v < n; v++) {
        size_t to = drawn(seed, v + 1);
        order[v] = order[to], order[to] = v;
    }
    for (size_t k = 0; k < n; k++) {
        uint32_t v = order[k];
        adds("%u ", identifiers[v]), adds("%u ", priorities[v]), adds("%u", owners[v]);
        for (uint32_t e = starts[v]; e < starts[v + 1]; e++)
            adds(e == starts[v] ? " %u" : ",%u", identifiers[targets[e]]);
        adds(drawn(seed, 3) ? ";\n" : " \"name %u\";", v);
    }
}

/* The call's answer and report, and that it writes nothing else. */
static int refuses(uint32_t (*call)(void), uint32_t answer, uint64_t at, uint64_t to)
{
    struct view before = view(), after;
    memset(into, 9, sizeof into), size = 77, report.at = report.to = 99;
    int holds = call() == answer && report.at == at && report.to == to && size == 77;
    for (size_t k = 0; k < sizeof into; k++)
        holds &= into[k] == 9;
    after = view();
    return holds && memcmp(&before, &after, sizeof after) == 0;
}

/* The full board has the text of pgboard_solve_text: in a buffer that just suffices, in a longer one, and in none that is shorter. */
static void has_the_right_text(void)
{
    for (into_len = right_len; into_len < right_len + 2; into_len++) {
        memset(into, 9, sizeof into), report.at = report.to = 99;
        EXPECT(writes_solution() == PGBOARD_OK && report.at == 0 && report.to == 0);
        EXPECT(size == right_len && memcmp(into, right, size) == 0 && into[size] == 9 && into[size + 1] == 9);
    }
    for (into_len = 0; into_len < right_len; into_len++)
        EXPECT(refuses(writes_solution, PGBOARD_CAPACITY, right_len, 0));
}

/* Opens a board of the text, if it is a game's, and returns the answer, which is that of pgboard_solve_text. In too small a buffer that
 * call reports the size of the text that it writes into a larger one. */
static uint32_t opens_as_it_is_solved(void)
{
    uint32_t answer = pgboard_solve_text(text, text_len, right, sizeof right, &right_len, &report);
    struct pgboard_report said = report;
    for (into_len = 0; answer == PGBOARD_OK && into_len < right_len; into_len += right_len - 1)
        EXPECT(refuses(solves_text, PGBOARD_CAPACITY, right_len, 0));
    EXPECT(!board.live);
    EXPECT(answer != PGBOARD_OK || right_len <= PGBOARD_TEXT_BOUND(text_len));
    EXPECT(answer == PGBOARD_OK ? opens_text() == answer : refuses(opens_text, answer, said.at, said.to));
    EXPECT(report.at == said.at && report.to == said.to && (answer == PGBOARD_OK) == board.live);
    EXPECT(pgboard_board_settled(&board) == 0 && pgboard_board_entries(&board) == 0);
    into_len = sizeof into;
    EXPECT(answer == PGBOARD_OK || refuses(writes_solution, PGBOARD_BOARD_CLOSED, 0, 0));
    return answer;
}

/* The journal of a board of the same game in arrays, with the same posts. */
static struct view of_arrays(uint64_t seed, uint64_t known, int is_of_text)
{
    EXPECT((is_of_text ? opens_text() : opens()) == PGBOARD_OK);
    for (; known > 0; known--) {
        struct rows it = good_claim(&seed);
        uint32_t answer = post(7, it.player, it.vertices, it.vertices_len, it.choices, it.choices_len);
        EXPECT(answer == PGBOARD_OK || answer == PGBOARD_POST_STALE);
        uint64_t left = n - pgboard_board_settled(&board);
        into_len = drawn(&seed, sizeof into);
        EXPECT(left == 0 || refuses(writes_solution, PGBOARD_BOARD_UNSETTLED, left, 0));
    }
    EXPECT(pgboard_board_finish(&board, &report) == PGBOARD_OK);
    struct view it = view();
    into_len = sizeof into, memset(into, 9, sizeof into);
    EXPECT(writes_solution() == PGBOARD_OK);
    pgboard_board_close(&board);
    return it;
}

/* A random game as text, whose board is that of the game in arrays. */
static void opens_a_random_game(uint64_t *seed)
{
    struct pgboard_game it;
    struct pgboard_results all = {.size = sizeof all, .winners = right_winners, .winners_len = 0, .choices = right_choices, .choices_len = 0};
    uint32_t identifiers[MOST], next = 0;
    random_game(seed);
    uint64_t gap = drawn(seed, 3) ? 1 : drawn(seed, 2) ? 10 : PGBOARD_MAX_NUMBER / n;
    for (size_t v = 0; v < n; v++)
        identifiers[v] = next += (v > 0) + (uint32_t)drawn(seed, gap);
    spells(seed, identifiers);
    it = game(), all.winners_len = all.choices_len = n;
    EXPECT(pgboard_solve(&it, &all, &report) == PGBOARD_OK);
    EXPECT(opens_as_it_is_solved() == PGBOARD_OK);
    into_len = drawn(seed, 2) ? drawn(seed, sizeof into) : 0;
    EXPECT(refuses(writes_solution, PGBOARD_BOARD_UNSETTLED, n, 0));
    EXPECT(refuses(opens_text, PGBOARD_BOARD_OPEN, 0, 0));
    for (uint32_t v = 0; v < n; v++)
        EXPECT(is_read(v, identifiers[v]));
    EXPECT(is_not_read((uint32_t)n, PGBOARD_BOARD_VERTEX, n));
    EXPECT(pgboard_board_finish(&board, &report) == PGBOARD_OK);
    has_the_right_text();
    EXPECT(solution() == PGBOARD_OK && memcmp(winners, right_winners, n) == 0 && memcmp(choices, right_choices, n * sizeof *choices) == 0);
    EXPECT(refuses(opens_text, PGBOARD_BOARD_OPEN, 0, 0));
    pgboard_board_close(&board);
    uint64_t known = drawn(seed, 3);
    struct view of_text = of_arrays(*seed, known, 1), other;
    EXPECT(pgboard_verify_text(text, text_len, into, size, &report) == PGBOARD_OK);
    other = of_arrays(*seed, known, 0);
    EXPECT(memcmp(&of_text, &other, sizeof other) == 0);
    /* of a game in arrays the identifiers are the vertices */
    for (uint32_t v = 0; v < n; v++)
        identifiers[v] = v;
    spells(seed, identifiers);
    EXPECT(pgboard_verify_text(text, text_len, into, size, &report) == PGBOARD_OK);
    EXPECT(pgboard_solve_text(text, text_len, right, sizeof right, &right_len, &report) == PGBOARD_OK);
    EXPECT(opens() == PGBOARD_OK && pgboard_board_finish(&board, &report) == PGBOARD_OK);
    has_the_right_text();
    for (uint32_t v = 0; v < n; v++)
        EXPECT(is_read(v, v));
    pgboard_board_close(&board);
}

/* The answers that wrong texts gave. */
static int seen[100];

/* The text is changed at random, which mostly leaves no game. */
static void opens_a_changed_text(uint64_t *seed)
{
    static const char some[] = "0123456789 ,;\"\n?pf";
    if (text_len == 0)
        return;
    size_t at = drawn(seed, text_len), piece = 1 + drawn(seed, 20);
    switch (drawn(seed, 4)) {
    case 0: text_len = at; break;
    case 1: memmove(text + at, text + at + 1, --text_len - at); break;
    case 2: /* a piece once more, or a long number */
        if (text_len + piece < sizeof text && at + piece <= text_len)
            memmove(text + at + piece, text + at, text_len - at), text_len += piece;
        if (drawn(seed, 2) && at + piece <= text_len)
            memset(text + at, '7', piece);
        break;
    default: text[at] = (uint8_t)some[drawn(seed, sizeof some - 1)]; break;
    }
    uint32_t answer = opens_as_it_is_solved();
    seen[answer]++;
    if (answer != PGBOARD_OK)
        return;
    EXPECT(pgboard_board_finish(&board, &report) == PGBOARD_OK);
    into_len = sizeof into, memset(into, 9, sizeof into);
    EXPECT(writes_solution() == PGBOARD_OK && size == right_len && memcmp(into, right, size) == 0 && into[size] == 9);
    pgboard_board_close(&board);
}

static void refuses_wrong_texts(void)
{
    static const struct {
        const char *text;
        uint32_t answer;
        uint64_t at, to;
    } wrong[] = {
        {"", PGBOARD_GAME_SYNTAX, 0, 0},
        {"0 0 0 ?;", PGBOARD_GAME_LEXICAL, 6, 0},         {"0 0 0 0", PGBOARD_GAME_SYNTAX, 7, 0},
        {"0 4294967296 0 0;", PGBOARD_GAME_NUMBER, 2, 0}, {"0 0 2 0;", PGBOARD_GAME_OWNER, 4, 0},
        {"7 0 0 7; 7 1 1 7;", PGBOARD_TWICE, 7, 0},       {"7 0 0 7,8;", PGBOARD_UNKNOWN, 7, 8},
    };
    for (size_t k = 0; k < sizeof wrong / sizeof *wrong; k++) {
        set_text(wrong[k].text);
        EXPECT(refuses(opens_text, wrong[k].answer, wrong[k].at, wrong[k].to));
        EXPECT(opens_as_it_is_solved() == wrong[k].answer);
    }
    /* an open board is the first fault */
    n = 2;
    set_text("3 0 0 3; 9 1 1 9;");
    EXPECT(opens_as_it_is_solved() == PGBOARD_OK);
    set_text("?");
    EXPECT(refuses(opens_text, PGBOARD_BOARD_OPEN, 0, 0));
    EXPECT(post(7, 1, (uint32_t[]){1}, 1, (uint32_t[]){1}, 1) == PGBOARD_OK && refuses(opens_text, PGBOARD_BOARD_OPEN, 0, 0));
    pgboard_board_close(&board);
    /* a text behind the limit is refused by its length, and never read */
    uint8_t *longer = malloc(PGBOARD_MAX_TEXT + (size_t)1);
    EXPECT(longer && pgboard_board_open_text(&board, longer, PGBOARD_MAX_TEXT + (size_t)1, &report) == PGBOARD_GAME_TOO_LONG);
    EXPECT(report.at == 0 && report.to == 0 && !board.live);
    free(longer);
}

/* Each allocation is refused in turn, with all after it, until the call needs no more. */
static void refuses_memory(void)
{
    uint32_t (*calls[])(void) = {opens_text, writes_solution};
    set_text("9 1 1 9; 3 2 0 3, 9; 5 0 0 3, 9;"), n = 3;
    into_len = sizeof into;
    for (int k = 0; k < 2; k++) {
        uint32_t answer = PGBOARD_MEMORY;
        long refused = 0;
        while (refused < 200 && answer == PGBOARD_MEMORY) {
            struct view before = view(), after;
            memset(into, 9, sizeof into), size = 77, allowed = refused + 1;
            answer = calls[k]();
            allowed = -1, refused += answer == PGBOARD_MEMORY;
            after = view();
            EXPECT(answer == PGBOARD_OK || (memcmp(&before, &after, sizeof after) == 0 && size == 77 && into[0] == 9 && report.at == 0 && report.to == 0));
        }
        EXPECT(answer == PGBOARD_OK && 0 < refused);
        EXPECT(pgboard_board_finish(&board, &report) == PGBOARD_OK);
    }
    EXPECT(size == 34 && memcmp(into, "paritysol 9;\n3 0 3;\n5 0 3;\n9 1 9;\n", size) == 0);
    pgboard_board_close(&board);
}

int main(int argc, char **argv)
{
    long games = argc > 1 ? strtol(argv[1], NULL, 10) : 100;
    uint64_t seed = 20261129;
    refuses_wrong_texts();
    refuses_memory();
    for (long k = 0; k < games; k++) {
        opens_a_random_game(&seed);
        for (int changed = 0; changed < 5; changed++)
            opens_a_changed_text(&seed);
    }
    static const uint32_t some[] = {PGBOARD_OK, PGBOARD_GAME_LEXICAL, PGBOARD_GAME_SYNTAX, PGBOARD_GAME_NUMBER, PGBOARD_GAME_OWNER, PGBOARD_TWICE, PGBOARD_UNKNOWN};
    for (size_t k = 0; k < sizeof some / sizeof *some; k++)
        EXPECT(games < 50 || seen[some[k]] > 0);
    printf("%d passed, %d failed\n", passed, failed);
    return failed != 0;
}
