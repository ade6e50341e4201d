/* Finishes a board part by part, stops at Ctrl-C, and goes on. Build it as docs/C.md says; it prints
 *
 *     stopped, calls: 1
 *     paritysol 4;
 *     0 1 4;
 *     1 1 4;
 *     2 1 3;
 *     3 1;
 *     4 1;
 */
#include <signal.h>
#include <stdio.h>
#include "pgboard.h"

/* Finishes a board, unless the callback returns nonzero before. */
static uint32_t finish_unless(int (*terminate)(void *state), void *state, struct pgboard_board *board, struct pgboard_report *report)
{
    uint32_t answer;
    do {
        uint64_t steps = 1000;
        answer = pgboard_board_advance(board, &steps, report);
    } while (answer == PGBOARD_BOARD_UNSETTLED && !terminate(state));
    return answer;
}

static volatile sig_atomic_t is_interrupted;

static void interrupt(int number)
{
    is_interrupted = number;
}

static int looks_at_the_flag(void *calls)
{
    ++*(int *)calls;
    return is_interrupted;
}

int main(void)
{
    static const char game[] = "0 0 1 4; 1 4 1 4; 2 2 1 3,2; 3 3 0 2; 4 5 0 1,0;";
    struct pgboard_board board = PGBOARD_BOARD;
    struct pgboard_report report;
    uint8_t text[PGBOARD_TEXT_BOUND(sizeof game)];
    size_t size;
    int calls = 0;

    if (pgboard_board_open_text(&board, (const uint8_t *)game, sizeof game - 1, &report) != PGBOARD_OK)
        return 1;
    /* Ctrl-C sets the flag, and so does this signal */
    signal(SIGINT, interrupt);
    raise(SIGINT);
    if (finish_unless(looks_at_the_flag, &calls, &board, &report) == PGBOARD_BOARD_UNSETTLED)
        printf("stopped, calls: %d\n", calls);
    is_interrupted = 0;
    /* what is settled has stayed, and the next call goes on */
    if (finish_unless(looks_at_the_flag, &calls, &board, &report) == PGBOARD_OK
        && pgboard_board_solution_text(&board, text, sizeof text, &size, &report) == PGBOARD_OK)
        printf("%.*s", (int)size, (const char *)text);
    pgboard_board_close(&board);
    return 0;
}
