/* Refuses memory and threads to a program that it is preloaded into, and counts what the program asks for. scripts/refuse-memory compiles it.
   REFUSE_LOG names a file of 4,096 bytes, of which the first places count allocations, threads and texts for the standard output; from place 8 on is,
   for each of these texts, how many allocations went before it. REFUSE_FIRST and REFUSE_LAST say which allocations are refused, counted from 1, and
   REFUSE_THREAD in which thread they count (0 is the first; without it, in all); REFUSE_START and REFUSE_STARTS which threads do not start. */
#define _GNU_SOURCE
#include <dlfcn.h>
#include <errno.h>
#include <fcntl.h>
#include <pthread.h>
#include <stdatomic.h>
#include <stdlib.h>
#include <sys/mman.h>
#include <unistd.h>

extern void *__libc_malloc(size_t), *__libc_calloc(size_t, size_t), *__libc_realloc(void *, size_t), *__libc_memalign(size_t, size_t);
enum { ASKED, STARTED, WRITTEN, MARKS = 8, PLACES = 512, THREADS = 64 };
static _Atomic long none[PLACES], *counts = none;
static long first, last, thread = -1, start, starts;
static int is_on;
static __thread long number;
static struct { void *(*run)(void *); void *with; } begun[THREADS];

static long told(const char *name, long other) { char *text = getenv(name); return text ? atol(text) : other; }

__attribute__((constructor)) static void begin(void) {
    char *name = getenv("REFUSE_LOG");
    int file = name ? open(name, O_RDWR) : -1;
    if (file < 0) return;
    void *at = mmap(0, PLACES * sizeof(long), PROT_READ | PROT_WRITE, MAP_SHARED, file, 0);
    close(file);
    if (at == MAP_FAILED) return;
    counts = at;
    first = told("REFUSE_FIRST", 0), last = told("REFUSE_LAST", first), thread = told("REFUSE_THREAD", -1);
    start = told("REFUSE_START", 0), starts = told("REFUSE_STARTS", start);
    is_on = 1;
}

static int refused(void) {
    if (!is_on || (thread >= 0 && number != thread)) return 0;
    long at = ++counts[ASKED];
    if (at < first || at > last) return 0;
    errno = ENOMEM;
    return 1;
}

void *malloc(size_t size) { return refused() ? 0 : __libc_malloc(size); }
void *calloc(size_t count, size_t size) { return refused() ? 0 : __libc_calloc(count, size); }
void *realloc(void *old, size_t size) { return size && refused() ? 0 : __libc_realloc(old, size); }
void *aligned_alloc(size_t to, size_t size) { return refused() ? 0 : __libc_memalign(to, size); }
void *memalign(size_t to, size_t size) { return refused() ? 0 : __libc_memalign(to, size); }
int posix_memalign(void **out, size_t to, size_t size) { return refused() || !(*out = __libc_memalign(to, size)) ? ENOMEM : 0; }

static void *run(void *place) {
    number = (long)place + 1;
    return begun[(long)place].run(begun[(long)place].with);
}

int pthread_create(pthread_t *made, const pthread_attr_t *how, void *(*body)(void *), void *with) {
    int (*next)(pthread_t *, const pthread_attr_t *, void *(*)(void *), void *) = dlsym(RTLD_NEXT, "pthread_create");
    long place = counts[STARTED]++;
    if (place + 1 >= start && place + 1 <= starts) return EAGAIN;
    if (place >= THREADS) return next(made, how, body, with);
    begun[place].run = body, begun[place].with = with;
    return next(made, how, run, (void *)place);
}

ssize_t write(int file, const void *bytes, size_t size) {
    ssize_t (*next)(int, const void *, size_t) = dlsym(RTLD_NEXT, "write");
    if (is_on && file == 1) {
        long place = MARKS + counts[WRITTEN]++;
        if (place < PLACES) counts[place] = counts[ASKED];
    }
    return next(file, bytes, size);
}
