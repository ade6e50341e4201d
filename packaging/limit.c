/* A write past the limit on a file's size is then a write that failed, as under ./pgboard, and no signal ends the program. */
#include <signal.h>
__attribute__((constructor)) static void ignore(void) { signal(SIGXFSZ, SIG_IGN); }
