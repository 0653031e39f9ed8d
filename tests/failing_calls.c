/* Stands before the C library (LD_PRELOAD) and has one call fail, so that a program is seen at each of its calls in turn.
 *
 *   FAIL=KIND NUMBER   the call of this kind with this number, from 1, fails: alloc for want of memory; read, write, open, look
 *                      (at what stands at a path), accept (a connection), and receive and send (on the connection that was
 *                      accepted first) with EIO; start (of a thread) with EAGAIN; or, as short, it moves one byte where it
 *                      was to move more
 *   COUNTS=FILE        how many calls there were of each kind: ten numbers of eight bytes, in the order of the kinds
 *   FAILED=FILE        the path that the failing call works on, where it has one
 */
#define _GNU_SOURCE
#include <dlfcn.h>
#include <errno.h>
#include <fcntl.h>
#include <limits.h>
#include <pthread.h>
#include <stdarg.h>
#include <stdatomic.h>
#include <stdio.h>
#include <stdlib.h>
#include <string.h>
#include <sys/mman.h>
#include <sys/socket.h>
#include <sys/stat.h>
#include <sys/types.h>
#include <unistd.h>

enum kind { ALLOC, READ, WRITE, OPEN, SHORT, LOOK, ACCEPT, RECEIVE, SEND, START, KINDS };
static const char *const names[KINDS] = {"alloc", "read", "write", "open", "short", "look", "accept", "receive", "send", "start"};
static atomic_long own_counts[KINDS];
static atomic_long *counts = own_counts;
static enum kind failing = KINDS;
static long failing_number;
static const char *failed_path;
static atomic_int first_connection = -1;
static int is_ready;

extern void *__libc_malloc(size_t), *__libc_calloc(size_t, size_t), *__libc_realloc(void *, size_t), *__libc_memalign(size_t, size_t);
#define REAL(type, name) ((type)dlsym(RTLD_NEXT, name))
typedef int (*opener)(const char *, int, mode_t);
typedef ssize_t (*writer)(int, const void *, size_t);

/* Counts stand in the file itself, however the program ends. */
static void share_counts(const char *path) {
    int file = REAL(opener, "open")(path, O_RDWR | O_CREAT | O_TRUNC, 0600);
    if (file < 0 || ftruncate(file, sizeof own_counts) != 0) return;
    void *at = mmap(NULL, sizeof own_counts, PROT_READ | PROT_WRITE, MAP_SHARED, file, 0);
    if (at != MAP_FAILED) counts = at;
    close(file);
}

__attribute__((constructor)) static void begin(void) {
    const char *said = getenv("FAIL"), *path = getenv("COUNTS");
    char name[16];
    if (said && sscanf(said, "%15s %ld", name, &failing_number) == 2)
        for (int kind = 0; kind < KINDS; kind++)
            if (strcmp(name, names[kind]) == 0) failing = kind;
    failed_path = getenv("FAILED");
    if (path) share_counts(path);
    is_ready = 1;
}

/* Whether the call that begins now is the one that fails. */
static int fails(enum kind kind) {
    return is_ready && atomic_fetch_add(&counts[kind], 1) + 1 == failing_number && kind == failing;
}

static void *none(void) { errno = ENOMEM; return NULL; }
void *malloc(size_t size) { return fails(ALLOC) ? none() : __libc_malloc(size); }
void *calloc(size_t count, size_t size) { return fails(ALLOC) ? none() : __libc_calloc(count, size); }
void *realloc(void *at, size_t size) { return fails(ALLOC) ? none() : __libc_realloc(at, size); }
void *aligned_alloc(size_t alignment, size_t size) { return fails(ALLOC) ? none() : __libc_memalign(alignment, size); }
int posix_memalign(void **at, size_t alignment, size_t size) {
    if (fails(ALLOC)) return ENOMEM;
    void *got = __libc_memalign(alignment, size);
    if (!got) return ENOMEM;
    *at = got;
    return 0;
}

typedef int (*starter)(pthread_t *, const pthread_attr_t *, void *(*)(void *), void *);
int pthread_create(pthread_t *thread, const pthread_attr_t *how, void *(*run)(void *), void *with) {
    return fails(START) ? EAGAIN : REAL(starter, "pthread_create")(thread, how, run, with);
}

static ssize_t faulty(void) { errno = EIO; return -1; }

static ssize_t faulty_at(const char *path) {
    int file = failed_path ? REAL(opener, "open")(failed_path, O_WRONLY | O_CREAT | O_TRUNC, 0600) : -1;
    if (file >= 0) {
        (void)!REAL(writer, "write")(file, path, strlen(path));
        close(file);
    }
    return faulty();
}

static ssize_t faulty_on(int fd) {
    char link[64], path[PATH_MAX];
    snprintf(link, sizeof link, "/proc/self/fd/%d", fd);
    ssize_t length = readlink(link, path, sizeof path - 1);
    path[length < 0 ? 0 : length] = 0;
    return faulty_at(path);
}

static size_t shortened(size_t size) { return size > 1 && fails(SHORT) ? 1 : size; }

/* Whether this read or write is the one that fails; of the first connection it counts as that, too. */
static int fails_on(int fd, enum kind kind, enum kind of_first) {
    int fails_there = fd == first_connection && fails(of_first);
    return fails(kind) || fails_there;
}

typedef ssize_t (*reader)(int, void *, size_t);
typedef ssize_t (*receiver)(int, void *, size_t, int);
typedef ssize_t (*sender)(int, const void *, size_t, int);
ssize_t read(int fd, void *to, size_t size) { return fails_on(fd, READ, RECEIVE) ? faulty_on(fd) : REAL(reader, "read")(fd, to, shortened(size)); }
ssize_t write(int fd, const void *from, size_t size) { return fails_on(fd, WRITE, SEND) ? faulty() : REAL(writer, "write")(fd, from, shortened(size)); }
ssize_t recv(int fd, void *to, size_t size, int flags) { return fails_on(fd, READ, RECEIVE) ? faulty() : REAL(receiver, "recv")(fd, to, shortened(size), flags); }
ssize_t send(int fd, const void *from, size_t size, int flags) { return fails_on(fd, WRITE, SEND) ? faulty() : REAL(sender, "send")(fd, from, shortened(size), flags); }
ssize_t getdents64(int fd, void *to, size_t size) { return fails(READ) ? faulty_on(fd) : REAL(reader, "getdents64")(fd, to, size); }

typedef int (*taker)(int, struct sockaddr *, socklen_t *, int);
int accept4(int fd, struct sockaddr *address, socklen_t *length, int flags) {
    if (fails(ACCEPT)) return (int)faulty();
    int got = REAL(taker, "accept4")(fd, address, length, flags), nobody = -1;
    if (got >= 0) atomic_compare_exchange_strong(&first_connection, &nobody, got);
    return got;
}

/* What the first connection's number names once it is closed is another one, or a file. */
int close(int fd) {
    int own = fd;
    if (fd >= 0) atomic_compare_exchange_strong(&first_connection, &own, -2);
    return REAL(int (*)(int), "close")(fd);
}

typedef int (*looker)(int, const char *, int, unsigned, struct statx *);
int statx(int at, const char *restrict path, int flags, unsigned mask, struct statx *restrict found) {
    if (*path && fails(LOOK)) return (int)faulty_at(path);
    return REAL(looker, "statx")(at, path, flags, mask, found);
}

static mode_t mode_of(int flags, va_list more) { return flags & (O_CREAT | O_TMPFILE) ? va_arg(more, mode_t) : 0; }
int openat(int at, const char *path, int flags, ...) {
    va_list more;
    va_start(more, flags);
    mode_t mode = mode_of(flags, more);
    va_end(more);
    return fails(OPEN) ? (int)faulty_at(path) : REAL(int (*)(int, const char *, int, mode_t), "openat")(at, path, flags, mode);
}
int open(const char *path, int flags, ...) {
    va_list more;
    va_start(more, flags);
    mode_t mode = mode_of(flags, more);
    va_end(more);
    return fails(OPEN) ? (int)faulty_at(path) : REAL(opener, "open")(path, flags, mode);
}
