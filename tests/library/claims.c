/* What others do to a claim of examples/board/outside.cpp, by a call that is wrapped (-Wl,--wrap=..). HOW in the environment says what:
 *
 *   stale    the same claim is posted before
 *   late     everything is settled before
 *   refused  the claim is refused */
#include <stdlib.h>
#include <string.h>

#include "pgboard.h"

uint32_t __real_pgboard_board_post(struct pgboard_board *board, const struct pgboard_claim *claim, struct pgboard_posted *posted,
                                   struct pgboard_report *report);

uint32_t __wrap_pgboard_board_post(struct pgboard_board *board, const struct pgboard_claim *claim, struct pgboard_posted *posted,
                                   struct pgboard_report *report)
{
    const char *how = getenv("HOW");
    if (strcmp(how, "refused") == 0)
        return PGBOARD_POST_LOST;
    if (strcmp(how, "stale") == 0 && __real_pgboard_board_post(board, claim, posted, report) == PGBOARD_MEMORY)
        abort();
    if (strcmp(how, "late") == 0 && pgboard_board_finish(board, report) != PGBOARD_OK)
        abort();
    return __real_pgboard_board_post(board, claim, posted, report);
}
