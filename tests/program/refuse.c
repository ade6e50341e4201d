/* Loaded before a program, this refuses it one allocation, one start of a thread, one read or one write, counted from 1:

       REFUSE_ALLOC=N  REFUSE_THREAD=N  REFUSE_READ=N  REFUSE_WRITE=N

   With REFUSE_FROM=1 every later one of the same kind is refused too. With REFUSE_ABOVE=K each allocation of more than K
   bytes is refused. With PIECE=K a read or a write takes at most K bytes. Writes are those to standard output. With TOGETHER=K a thread waits at its start until K threads have started, or
   something was refused; after a second it waits no longer. What starting a thread takes inside the C library is not counted.
   At the end the four counts go to the file that COUNTS names, then the bytes that were not freed, and the greatest number of bytes
   that were allocated at once. */
#define _GNU_SOURCE
#include <dlfcn.h>
#include <errno.h>
#include <malloc.h>
#include <pthread.h>
#include <stdatomic.h>
#include <stdio.h>
#include <stdlib.h>
#include <string.h>
#include <sys/syscall.h>
#include <unistd.h>

enum kind { ALLOC, THREAD, READ, WRITE, KINDS };

static const char *const names[KINDS] = {"REFUSE_ALLOC", "REFUSE_THREAD", "REFUSE_READ", "REFUSE_WRITE"};
static atomic_long counts[KINDS];
static long refused_at[KINDS];
static long from, above, piece, together;
static int counting;
static atomic_int was_refused;
static atomic_long live, peak;
static __thread int starting;

static long number(const char *name) {
    const char *text = getenv(name);
    return text ? atol(text) : 0;
}

__attribute__((constructor)) static void begin(void) {
    for (int kind = 0; kind < KINDS; kind++) refused_at[kind] = number(names[kind]);
    from = number("REFUSE_FROM");
    above = number("REFUSE_ABOVE");
    piece = number("PIECE");
    together = number("TOGETHER");
    counting = 1;
}

__attribute__((destructor)) static void end(void) {
    const char *name = getenv("COUNTS");
    FILE *file;
    if (!counting) return;
    counting = 0;
    file = name ? fopen(name, "w") : NULL;
    if (!file) return;
    for (int kind = 0; kind < KINDS; kind++) fprintf(file, "%ld ", (long)counts[kind]);
    fprintf(file, "%ld %ld\n", (long)live, (long)peak);
    fclose(file);
}

/* the program ends without destructors */
void _exit(int status) {
    end();
    syscall(SYS_exit_group, status);
    __builtin_unreachable();
}

static int refused(enum kind kind, int error) {
    long at;
    if (!counting || starting) return 0;
    at = ++counts[kind];
    if (!refused_at[kind] || (from ? at < refused_at[kind] : at != refused_at[kind])) return 0;
    was_refused = 1;
    errno = error;
    return 1;
}

static int refused_memory(size_t size) {
    return refused(ALLOC, ENOMEM) || (counting && !starting && above && size > (size_t)above);
}

/* adds the bytes of a block, or takes them away */
static void *note(void *block, int sign) {
    long now, most = peak;
    if (!counting || !block) return block;
    now = live += sign * (long)malloc_usable_size(block);
    while (now > most && !atomic_compare_exchange_weak(&peak, &most, now)) {}
    return block;
}

#define NEXT(name) \
    static __typeof__(name) *next; \
    if (!next) next = (__typeof__(name) *)dlsym(RTLD_NEXT, #name)

void *malloc(size_t size) {
    NEXT(malloc);
    return refused_memory(size) ? NULL : note(next(size), 1);
}

void *realloc(void *old, size_t size) {
    NEXT(realloc);
    if (refused_memory(size)) return NULL;
    note(old, -1);
    return note(next(old, size), 1);
}

void free(void *block) {
    NEXT(free);
    note(block, -1);
    next(block);
}

void *aligned_alloc(size_t alignment, size_t size) {
    NEXT(aligned_alloc);
    return refused_memory(size) ? NULL : note(next(alignment, size), 1);
}

int posix_memalign(void **to, size_t alignment, size_t size) {
    NEXT(posix_memalign);
    int status = refused_memory(size) ? ENOMEM : next(to, alignment, size);
    if (!status) note(*to, 1);
    return status;
}

void *calloc(size_t count, size_t size) {
    static char early[4096];
    static size_t used;
    static int looking;
    static __typeof__(calloc) *next;
    if (!next && looking) {
        /* dlsym asks for memory while it looks for calloc; what it gets is never given back */
        char *room = early + used;
        used += (count * size + 15) / 16 * 16;
        return used <= sizeof early ? room : NULL;
    }
    if (!next) {
        looking = 1;
        next = (__typeof__(calloc) *)dlsym(RTLD_NEXT, "calloc");
        looking = 0;
    }
    return refused_memory(count * size) ? NULL : note(next(count, size), 1);
}

static size_t cut(size_t count) {
    return piece && count > (size_t)piece ? (size_t)piece : count;
}

ssize_t read(int file, void *to, size_t count) {
    NEXT(read);
    return refused(READ, EIO) ? -1 : next(file, to, cut(count));
}

ssize_t write(int file, const void *bytes, size_t count) {
    NEXT(write);
    if (file != STDOUT_FILENO) return next(file, bytes, count);
    return refused(WRITE, EIO) ? -1 : next(file, bytes, cut(count));
}

/* the threads that were started, with what each is to run */
static struct started { void *(*run)(void *); void *with; } threads[64];
static atomic_int asked_for, arrived;

static void *waits_for_others(void *own) {
    struct started *thread = own;
    arrived++;
    for (int turn = 0; arrived < together && !was_refused && turn < 10000; turn++) usleep(100);
    return thread->run(thread->with);
}

int pthread_create(pthread_t *thread, const pthread_attr_t *how, void *(*run)(void *), void *with) {
    int status;
    NEXT(pthread_create);
    if (refused(THREAD, EAGAIN)) return EAGAIN;
    starting = 1;
    if (together && asked_for < 64) {
        struct started *own = &threads[asked_for++];
        *own = (struct started){run, with};
        status = next(thread, how, waits_for_others, own);
    } else {
        status = next(thread, how, run, with);
    }
    starting = 0;
    return status;
}
