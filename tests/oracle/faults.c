/* Stands before the system's calls of a program, tells them, and lets one of them go wrong. By variables of its environment:

   FAULT   what happens at call AT of open, read, write and close, counted from 1: `fail` (the call fails by error ERROR), `zero` (it
           moves nothing), `signal` (the program sends itself signal SIGNAL before it), `grow` (the file gains the bytes of GROWTH
           before it); with ALL set, a file that failed or moved nothing does so from there on
   PIECE   reads and writes move so many bytes at the most
   REFUSED the growth of memory, counted from 1, that is refused; with ALL set, all later ones too
   FSIZE, NOFILE   the limits of these names; a file at its limit is a failed write, or with XFSZ set a signal

   Each call, as it was made, is a line on descriptor 99: what, the file's name (in, out and err are the standard streams), and how many
   bytes it moved. The last line tells how many growths of memory there were. */
#define _GNU_SOURCE
#include <errno.h>
#include <fcntl.h>
#include <signal.h>
#include <stdarg.h>
#include <stdio.h>
#include <stdlib.h>
#include <string.h>
#include <sys/resource.h>
#include <sys/syscall.h>
#include <unistd.h>

extern void *__libc_malloc(size_t), *__libc_calloc(size_t, size_t), *__libc_realloc(void *, size_t), *__libc_memalign(size_t, size_t);

static const char *fault;
static char names[64][64] = {"<in>", "<out>", "<err>"};
static long at, calls, piece, refused, is_all, growths, is_begun;

static long number(const char *name) { return getenv(name) ? atol(getenv(name)) : 0; }

static void limit(int which, const char *name) {
    if (!getenv(name)) return;
    struct rlimit most = {number(name), number(name)};
    setrlimit(which, &most);
}

__attribute__((constructor)) static void begin(void) {
    fault = getenv("FAULT") ? getenv("FAULT") : "";
    at = number("AT"), piece = number("PIECE"), refused = number("REFUSED"), is_all = number("ALL");
    signal(SIGXFSZ, getenv("XFSZ") ? SIG_DFL : SIG_IGN);
    if (getenv("SIGNAL")) signal(number("SIGNAL"), SIG_DFL); /* which a shell may have ignored for what runs behind it */
    limit(RLIMIT_FSIZE, "FSIZE");
    limit(RLIMIT_NOFILE, "NOFILE");
    is_begun = 1;
}

static void tell(const char *call, const char *name, long count) {
    char line[128];
    int kept = errno, length = snprintf(line, sizeof line, "%s\t%.63s\t%ld\n", call, name, count);
    syscall(SYS_write, 99, line, length);
    errno = kept;
}

static void grow(const char *name) {
    int fd = syscall(SYS_openat, AT_FDCWD, name, O_WRONLY | O_APPEND, 0);
    syscall(SYS_write, fd, getenv("GROWTH"), strlen(getenv("GROWTH")));
    syscall(SYS_close, fd);
}

/* Whether this call fails, or moves nothing (2). */
static int meets(const char *name) {
    static char met[64];
    calls++;
    if (calls != at && !(is_all && at && calls > at && !strcmp(name, met))) return 0;
    snprintf(met, sizeof met, "%s", name);
    if (!strcmp(fault, "grow")) grow(name);
    if (!strcmp(fault, "signal")) kill(getpid(), number("SIGNAL"));
    errno = number("ERROR");
    return !strcmp(fault, "fail") ? 1 : !strcmp(fault, "zero") ? 2 : 0;
}

int open(const char *name, int flags, ...) {
    va_list rest;
    va_start(rest, flags);
    int mode = va_arg(rest, int), fd = -1;
    va_end(rest);
    if (meets(name) != 1) fd = syscall(SYS_openat, AT_FDCWD, name, flags, mode);
    if (fd >= 0 && fd < 64) snprintf(names[fd], 64, "%s", name);
    tell(flags & O_CREAT ? "create" : "open", name, fd < 0 ? -1 : 0);
    return fd;
}

static long moves(const char *call, int which, int fd, const void *bytes, size_t count) {
    if (fd == 99) return syscall(which, fd, bytes, count);
    int met = meets(names[fd]);
    long moved = met == 1 ? -1 : met == 2 ? 0 : syscall(which, fd, bytes, piece && count > piece ? piece : count);
    tell(call, names[fd], moved);
    return moved;
}

ssize_t read(int fd, void *bytes, size_t count) { return moves("read", SYS_read, fd, bytes, count); }
ssize_t write(int fd, const void *bytes, size_t count) { return moves("write", SYS_write, fd, bytes, count); }
ssize_t __write(int fd, const void *bytes, size_t count) { return write(fd, bytes, count); }

int close(int fd) {
    int met = meets(names[fd]), result = syscall(SYS_close, fd);
    tell("close", names[fd], 0);
    return met == 1 ? -1 : result;
}

static int refuses(void) {
    if (!is_begun || ++growths < refused || !refused || (growths > refused && !is_all)) return 0;
    errno = ENOMEM;
    return 1;
}

__attribute__((destructor)) static void end(void) { tell("growths", "memory", growths); }

void *malloc(size_t n) { return refuses() ? 0 : __libc_malloc(n); }
void *calloc(size_t n, size_t m) { return refuses() ? 0 : __libc_calloc(n, m); }
void *realloc(void *p, size_t n) { return refuses() ? 0 : __libc_realloc(p, n); }
void *memalign(size_t a, size_t n) { return refuses() ? 0 : __libc_memalign(a, n); }
void *aligned_alloc(size_t a, size_t n) { return refuses() ? 0 : __libc_memalign(a, n); }
int posix_memalign(void **p, size_t a, size_t n) {
    if (refuses()) return ENOMEM;
    *p = __libc_memalign(a, n);
    return *p ? 0 : ENOMEM;
}
