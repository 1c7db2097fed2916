/* Refuses requests for memory and starts of threads, to see what a program makes of it: preloaded (LD_PRELOAD) before the C library.
 *
 * REFUSE_AT=N     refuses the Nth request (from 1 on) alone
 * REFUSE_FROM=N   refuses the Nth and all later ones
 * REFUSE_TOLD=F   counts the requests met in the first eight bytes of the file F
 */
#define _GNU_SOURCE
#include <dlfcn.h>
#include <errno.h>
#include <fcntl.h>
#include <pthread.h>
#include <stdatomic.h>
#include <stdlib.h>
#include <sys/mman.h>
#include <unistd.h>

static atomic_ulong counted;
static atomic_ulong *met = &counted;
static unsigned long at, from;
static int is_ready;

static unsigned long number_of(const char *name) {
    const char *text = getenv(name);
    return text ? strtoul(text, NULL, 10) : 0;
}

/* The program may end without a word to its libraries, so the count stands in the file at all times. */
static void count_in(const char *name) {
    int file = open(name, O_RDWR | O_CREAT | O_TRUNC, 0644);
    if (file < 0 || ftruncate(file, sizeof *met)) {
        return;
    }
    void *place = mmap(NULL, sizeof *met, PROT_READ | PROT_WRITE, MAP_SHARED, file, 0);
    if (place != MAP_FAILED) {
        met = place;
    }
    close(file);
}

__attribute__((constructor)) static void start(void) {
    const char *name = getenv("REFUSE_TOLD");
    if (name) {
        count_in(name);
    }
    at = number_of("REFUSE_AT");
    from = number_of("REFUSE_FROM");
    is_ready = 1;
}

static int is_refused(void) {
    if (!is_ready) {
        return 0;
    }
    unsigned long number = atomic_fetch_add(met, 1) + 1;
    return number == at || (from && number >= from);
}

extern void *__libc_malloc(size_t);
extern void *__libc_realloc(void *, size_t);
extern void *__libc_calloc(size_t, size_t);
extern void *__libc_memalign(size_t, size_t);

void *malloc(size_t size) {
    if (is_refused()) {
        errno = ENOMEM;
        return NULL;
    }
    return __libc_malloc(size);
}

void *realloc(void *old, size_t size) {
    if (is_refused()) {
        errno = ENOMEM;
        return NULL;
    }
    return __libc_realloc(old, size);
}

void *calloc(size_t number, size_t size) {
    if (is_refused()) {
        errno = ENOMEM;
        return NULL;
    }
    return __libc_calloc(number, size);
}

void *aligned_alloc(size_t alignment, size_t size) {
    if (is_refused()) {
        errno = ENOMEM;
        return NULL;
    }
    return __libc_memalign(alignment, size);
}

int pthread_create(pthread_t *thread, const pthread_attr_t *attributes, void *(*body)(void *), void *given) {
    static int (*create)(pthread_t *, const pthread_attr_t *, void *(*)(void *), void *);
    if (!create) {
        create = (int (*)(pthread_t *, const pthread_attr_t *, void *(*)(void *), void *))dlsym(RTLD_NEXT, "pthread_create");
    }
    return is_refused() ? EAGAIN : create(thread, attributes, body, given);
}
