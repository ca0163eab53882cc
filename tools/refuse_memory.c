// Loaded before the C library by ./checks/refuse_memory. Counts the requests for memory of all threads together, and refuses
// those that the environment names; the start of a thread is one, since it needs a stack.
//
//     REFUSE_AT=N      request N, with REFUSE_ON=1 each later one too
//     REFUSE_THREAD=N  the start of thread N; those before it begin a little later than they were started
//     REFUSE_PAST=N    all memory past N kilobytes more than the program has when it begins
//     REFUSE_COUNT=F   at the end F is written: how many requests there were, threads started, and threads begun
#define _GNU_SOURCE
#include <dlfcn.h>
#include <errno.h>
#include <fcntl.h>
#include <pthread.h>
#include <stdatomic.h>
#include <stdio.h>
#include <stdlib.h>
#include <sys/resource.h>
#include <sys/syscall.h>
#include <unistd.h>

#define MOST_THREADS 64
#define DELAY_MICROS 20000 // far longer than it takes to answer without waiting for the threads that were started
#define STACK (1 << 20)    // of the first thread, which no answer tells of

static atomic_ulong requests, starts, started, begun;
static unsigned long at, on, thread;

static void *(*real_malloc)(size_t);
static void *(*real_calloc)(size_t, size_t);
static void *(*real_realloc)(void *, size_t);
static void *(*real_aligned_alloc)(size_t, size_t);
static int (*real_posix_memalign)(void **, size_t, size_t);
static int (*real_pthread_create)(pthread_t *, const pthread_attr_t *, void *(*)(void *), void *);

static void find_real(void) {
    real_malloc = dlsym(RTLD_NEXT, "malloc");
    real_calloc = dlsym(RTLD_NEXT, "calloc");
    real_realloc = dlsym(RTLD_NEXT, "realloc");
    real_aligned_alloc = dlsym(RTLD_NEXT, "aligned_alloc");
    real_posix_memalign = dlsym(RTLD_NEXT, "posix_memalign");
    real_pthread_create = dlsym(RTLD_NEXT, "pthread_create");
}

static unsigned long number_in(const char *name) {
    const char *number = getenv(name);
    return number ? strtoul(number, 0, 10) : 0;
}

static void limit_memory(unsigned long kilobytes) {
    char stack[STACK];
    for (long i = 0; i < STACK; i += 1024) ((volatile char *)stack)[i] = 0;
    char text[32] = "";
    int fd = open("/proc/self/statm", O_RDONLY);
    if (fd < 0 || read(fd, text, sizeof text - 1) < 0) abort();
    close(fd);
    rlim_t most = strtoul(text, 0, 10) * (rlim_t)sysconf(_SC_PAGESIZE) + ((rlim_t)kilobytes << 10);
    if (setrlimit(RLIMIT_AS, &(struct rlimit){most, most})) abort();
}

__attribute__((constructor)) static void begin(void) {
    find_real();
    at = number_in("REFUSE_AT");
    on = number_in("REFUSE_ON");
    thread = number_in("REFUSE_THREAD");
    if (getenv("REFUSE_PAST")) limit_memory(number_in("REFUSE_PAST"));
    requests = 0;
}

// Where the program returns from main; the same is done where it ends by _exit, as one with threads does.
__attribute__((destructor)) static void end(void) {
    const char *path = getenv("REFUSE_COUNT");
    int fd = path ? open(path, O_WRONLY | O_CREAT | O_TRUNC, 0600) : -1;
    char text[96];
    unsigned long counts[] = {requests, started, begun};
    int size = snprintf(text, sizeof text, "%lu %lu %lu\n", counts[0], counts[1], counts[2]);
    if (fd >= 0 && write(fd, text, size) < 0) abort();
}

void _exit(int status) {
    end();
    for (;;) syscall(SYS_exit_group, status);
}

static int refused(void) {
    unsigned long number = atomic_fetch_add(&requests, 1) + 1;
    if (!at || number < at || (number > at && !on)) return 0;
    errno = ENOMEM;
    return 1;
}

void *malloc(size_t size) {
    if (!real_malloc) find_real();
    return refused() ? 0 : real_malloc(size);
}

void *calloc(size_t count, size_t size) {
    if (!real_calloc) find_real();
    return refused() ? 0 : real_calloc(count, size);
}

void *realloc(void *old, size_t size) {
    if (!real_realloc) find_real();
    return refused() ? 0 : real_realloc(old, size);
}

void *aligned_alloc(size_t to, size_t size) {
    return refused() ? 0 : real_aligned_alloc(to, size);
}

int posix_memalign(void **made, size_t to, size_t size) {
    return refused() ? ENOMEM : real_posix_memalign(made, to, size);
}

struct part {
    void *(*run)(void *);
    void *given;
};

static void *run_part(void *given) {
    struct part *part = given;
    if (thread) usleep(DELAY_MICROS);
    atomic_fetch_add(&begun, 1);
    return part->run(part->given);
}

int pthread_create(pthread_t *made, const pthread_attr_t *how, void *(*run)(void *), void *given) {
    static struct part parts[MOST_THREADS];
    unsigned long number = atomic_fetch_add(&starts, 1) + 1;
    if (number > MOST_THREADS) abort();
    if (refused() || number == thread) return EAGAIN;
    parts[number - 1] = (struct part){run, given};
    int error = real_pthread_create(made, how, run_part, &parts[number - 1]);
    if (!error) atomic_fetch_add(&started, 1);
    return error;
}
