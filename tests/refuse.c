// Refuses growths of memory, or threads. tests/each-growth-refused loads this library before the program. It counts the calls of malloc,
// calloc, realloc, aligned_alloc and posix_memalign, or with REFUSE_THREADS=1 those of pthread_create, in all threads, in the file that
// REFUSE_COUNT names: 16 bytes, which have to be there. REFUSE_FROM=N refuses the N-th, and with REFUSE_ALL=1 each later one too.
// With REFUSE_THREADS=1 the file's other 8 bytes are the most threads that ran while the program wrote to its standard output.
#define _GNU_SOURCE
#include <dlfcn.h>
#include <errno.h>
#include <fcntl.h>
#include <pthread.h>
#include <stdatomic.h>
#include <stddef.h>
#include <stdlib.h>
#include <sys/mman.h>
#include <unistd.h>

extern void *__libc_malloc(size_t size);
extern void *__libc_calloc(size_t count, size_t size);
extern void *__libc_realloc(void *old, size_t size);
extern void *__libc_memalign(size_t alignment, size_t size);

static atomic_long here[2];
static atomic_long *counted = here;
static atomic_long running;
static long from;
static int all;
static int of_threads;

__attribute__((constructor)) static void begin(void) {
    const char *said = getenv("REFUSE_FROM");
    const char *path = getenv("REFUSE_COUNT");
    int file = path ? open(path, O_RDWR) : -1;
    if (file >= 0) {
        void *shared = mmap(NULL, sizeof here, PROT_READ | PROT_WRITE, MAP_SHARED, file, 0);
        if (shared != MAP_FAILED) counted = shared;
        close(file);
    }
    from = said ? atol(said) : 0;
    all = getenv("REFUSE_ALL") != NULL;
    of_threads = getenv("REFUSE_THREADS") != NULL;
    atomic_store(&counted[0], 0);
    atomic_store(&counted[1], 0);
}

// Returns whether this growth, or this thread, is refused.
static int refused(int is_thread) {
    if (is_thread != of_threads) return 0;
    long number = atomic_fetch_add(counted, 1) + 1;
    if (from == 0 || number < from || (number > from && !all)) return 0;
    errno = is_thread ? EAGAIN : ENOMEM;
    return 1;
}

void *malloc(size_t size) { return refused(0) ? NULL : __libc_malloc(size); }
void *calloc(size_t count, size_t size) { return refused(0) ? NULL : __libc_calloc(count, size); }
void *realloc(void *old, size_t size) { return refused(0) ? NULL : __libc_realloc(old, size); }
void *aligned_alloc(size_t alignment, size_t size) {
    return refused(0) ? NULL : __libc_memalign(alignment, size);
}
int posix_memalign(void **to, size_t alignment, size_t size) {
    if (refused(0)) return ENOMEM;
    *to = __libc_memalign(alignment, size);
    return *to ? 0 : ENOMEM;
}

struct begun {
    void *(*start)(void *);
    void *given;
};

// Runs a thread, which counts as running until its function returns.
static void *counted_run(void *own) {
    struct begun begun = *(struct begun *)own;
    free(own);
    void *told = begun.start(begun.given);
    atomic_fetch_sub(&running, 1);
    return told;
}

int pthread_create(pthread_t *thread, const pthread_attr_t *how, void *(*start)(void *), void *given) {
    if (refused(1)) return EAGAIN;
    int (*create)(pthread_t *, const pthread_attr_t *, void *(*)(void *), void *);
    *(void **)&create = dlsym(RTLD_NEXT, "pthread_create");
    if (!of_threads) return create(thread, how, start, given);
    struct begun *own = malloc(sizeof *own);
    if (own == NULL) return EAGAIN;
    *own = (struct begun){start, given};
    atomic_fetch_add(&running, 1);
    int fault = create(thread, how, counted_run, own);
    if (fault != 0) {
        atomic_fetch_sub(&running, 1);
        free(own);
    }
    return fault;
}

// Notes how many threads run. One whose work is done is given up to a second to return.
static void note_running(void) {
    for (int tries = 0; tries < 1000 && atomic_load(&running) > 0; tries++) usleep(1000);
    long now = atomic_load(&running);
    if (now > atomic_load(&counted[1])) atomic_store(&counted[1], now);
}

ssize_t write(int file, const void *bytes, size_t length) {
    ssize_t (*plain)(int, const void *, size_t);
    *(void **)&plain = dlsym(RTLD_NEXT, "write");
    if (file == STDOUT_FILENO) note_running();
    return plain(file, bytes, length);
}
