/* Preloaded into a program of glibc, it counts what the program allocates, how often it reads standard input
   and how often it writes standard output, from 1, and lets some of these calls fail:

   FAULTS_ALLOCATION=N  the Nth allocation is refused
   FAULTS_THREAD=N      the Nth thread is not started
   FAULTS_READ=N        the Nth read fails
   FAULTS_WRITE=N       the Nth write fails
   FAULTS_READ_STEP=K   a read gives at most K bytes
   FAULTS_WRITE_STEP=K  a write takes at most K bytes
   FAULTS_ROOM=K        standard output takes K bytes in all, and then each write fails
   FAULTS_NOTHING=1     each write takes nothing and does not fail
   FAULTS_COUNTS=FILE   a file of 32 bytes, which gets the counts of allocations, threads, reads and writes */
#define _GNU_SOURCE
#include <dlfcn.h>
#include <errno.h>
#include <fcntl.h>
#include <pthread.h>
#include <stdlib.h>
#include <sys/mman.h>
#include <sys/syscall.h>
#include <unistd.h>

enum { ALLOCATIONS, THREADS, READS, WRITES, KINDS };

static unsigned long own_counts[KINDS];
static unsigned long *counts = own_counts;
static unsigned long failing[KINDS];
static size_t read_step, write_step, room;
static int has_room, takes_nothing, begun;

static unsigned long number(const char *name) {
    const char *text = getenv(name);
    return text == NULL ? 0 : strtoul(text, NULL, 10);
}

__attribute__((constructor)) static void begin(void) {
    const char *file = getenv("FAULTS_COUNTS");
    if (file != NULL) {
        int place = open(file, O_RDWR);
        void *shared = mmap(NULL, sizeof own_counts, PROT_READ | PROT_WRITE, MAP_SHARED, place, 0);
        if (shared == MAP_FAILED) {
            _exit(99);
        }
        counts = shared;
        close(place);
    }
    failing[ALLOCATIONS] = number("FAULTS_ALLOCATION");
    failing[THREADS] = number("FAULTS_THREAD");
    failing[READS] = number("FAULTS_READ");
    failing[WRITES] = number("FAULTS_WRITE");
    read_step = number("FAULTS_READ_STEP");
    write_step = number("FAULTS_WRITE_STEP");
    room = number("FAULTS_ROOM");
    has_room = getenv("FAULTS_ROOM") != NULL;
    takes_nothing = getenv("FAULTS_NOTHING") != NULL;
    begun = 1;
}

/* Counts a call, and tells whether it is the one that fails. */
static int fails(int kind, int error) {
    if (begun && __atomic_add_fetch(&counts[kind], 1, __ATOMIC_SEQ_CST) == failing[kind]) {
        errno = error;
        return 1;
    }
    return 0;
}

extern void *__libc_malloc(size_t size);
extern void *__libc_calloc(size_t count, size_t size);
extern void *__libc_realloc(void *old, size_t size);
extern void *__libc_memalign(size_t alignment, size_t size);

void *malloc(size_t size) { return fails(ALLOCATIONS, ENOMEM) ? NULL : __libc_malloc(size); }

void *calloc(size_t count, size_t size) { return fails(ALLOCATIONS, ENOMEM) ? NULL : __libc_calloc(count, size); }

void *realloc(void *old, size_t size) { return fails(ALLOCATIONS, ENOMEM) ? NULL : __libc_realloc(old, size); }

void *memalign(size_t alignment, size_t size) {
    return fails(ALLOCATIONS, ENOMEM) ? NULL : __libc_memalign(alignment, size);
}

void *aligned_alloc(size_t alignment, size_t size) { return memalign(alignment, size); }

int posix_memalign(void **made, size_t alignment, size_t size) {
    void *block = memalign(alignment, size);
    if (block == NULL) {
        return ENOMEM;
    }
    *made = block;
    return 0;
}

int pthread_create(pthread_t *thread, const pthread_attr_t *how, void *(*start)(void *), void *argument) {
    int (*real)(pthread_t *, const pthread_attr_t *, void *(*)(void *), void *) = dlsym(RTLD_NEXT, "pthread_create");
    return fails(THREADS, EAGAIN) ? EAGAIN : real(thread, how, start, argument);
}

static size_t at_most(size_t size, size_t step) { return step != 0 && step < size ? step : size; }

ssize_t read(int place, void *bytes, size_t size) {
    if (place == STDIN_FILENO) {
        if (fails(READS, EIO)) {
            return -1;
        }
        size = at_most(size, read_step);
    }
    return syscall(SYS_read, place, bytes, size);
}

ssize_t write(int place, const void *bytes, size_t size) {
    ssize_t taken;
    if (place != STDOUT_FILENO) {
        return syscall(SYS_write, place, bytes, size);
    }
    if (fails(WRITES, EIO)) {
        return -1;
    }
    if (takes_nothing) {
        return 0;
    }
    size = at_most(size, write_step);
    if (has_room) {
        if (room == 0 && size != 0) {
            errno = ENOSPC;
            return -1;
        }
        size = at_most(size, room);
    }
    taken = syscall(SYS_write, place, bytes, size);
    if (has_room && taken > 0) {
        room -= (size_t)taken;
    }
    return taken;
}

ssize_t __read(int place, void *bytes, size_t size) { return read(place, bytes, size); }

ssize_t __write(int place, const void *bytes, size_t size) { return write(place, bytes, size); }
