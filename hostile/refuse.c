// Preloaded into the program: refuses memory, fails reads and writes, or lets them move one byte, by the environment.
//   REFUSE_ALLOC=N     the Nth request for memory is refused, from 1; N+ refuses all from the Nth on
//   REFUSE_READ=N:E    the Nth read fails with the error E; N:0 has it find the end
//   REFUSE_WRITE=N:E   the Nth write fails with the error E; N:0 has it take nothing; N:E+ refuses all from the Nth on
//   REFUSE_SHORT=1     each read and write moves one byte
//   REFUSE_THREAD=N    the Nth thread that is asked for doesn't start, from 1; N+ refuses all from the Nth on
//   REFUSE_TELL=FILE   at the end the numbers of requests, reads and writes, of threads that were started and of those
//                      that were joined are written to FILE
#define _GNU_SOURCE
#include <dlfcn.h>
#include <errno.h>
#include <fcntl.h>
#include <pthread.h>
#include <stdatomic.h>
#include <stdio.h>
#include <stdlib.h>
#include <string.h>
#include <sys/syscall.h>
#include <sys/uio.h>
#include <unistd.h>

extern void *__libc_malloc(size_t);
extern void *__libc_calloc(size_t, size_t);
extern void *__libc_realloc(void *, size_t);
extern void *__libc_memalign(size_t, size_t);

static int armed, short_ones;
static atomic_long allocs;
static long reads, writes, asked, started, joined, thread_at, thread_on;
static int (*real_create)(pthread_t *, const pthread_attr_t *, void *(*)(void *), void *);
static int (*real_join)(pthread_t, void **);
static long alloc_at, alloc_on, read_at, read_error, write_at, write_error, write_on;
static const char *tell_to;

static long number(const char *name, const char **rest) {
    const char *text = getenv(name);
    char *end = NULL;
    long found = text ? strtol(text, &end, 10) : 0;
    *rest = end ? end : "";
    return found;
}

__attribute__((constructor)) static void arm(void) {
    const char *rest;
    alloc_at = number("REFUSE_ALLOC", &rest);
    alloc_on = *rest == '+';
    read_at = number("REFUSE_READ", &rest);
    read_error = *rest == ':' ? atol(rest + 1) : EIO;
    write_at = number("REFUSE_WRITE", &rest);
    write_error = *rest == ':' ? atol(rest + 1) : EIO;
    write_on = strchr(rest, '+') != NULL;
    short_ones = getenv("REFUSE_SHORT") != NULL;
    thread_at = number("REFUSE_THREAD", &rest);
    thread_on = *rest == '+';
    *(void **)&real_create = dlsym(RTLD_NEXT, "pthread_create");
    *(void **)&real_join = dlsym(RTLD_NEXT, "pthread_join");
    tell_to = getenv("REFUSE_TELL");
    armed = 1;
}

__attribute__((destructor)) static void tell(void) {
    char line[96];
    armed = 0;
    if (!tell_to)
        return;
    int length = snprintf(line, sizeof line, "%ld %ld %ld %ld %ld\n", (long)allocs, reads, writes, started, joined);
    int file = open(tell_to, O_WRONLY | O_CREAT | O_TRUNC, 0600);
    if (file >= 0) {
        syscall(SYS_write, file, line, length);
        close(file);
    }
}

// A program that may start threads ends so, without destructors.
void _exit(int status) {
    tell();
    syscall(SYS_exit_group, status);
    __builtin_unreachable();
}

static int is_refused(void) {
    if (!armed)
        return 0;
    long at = ++allocs;
    if (alloc_at && (at == alloc_at || (alloc_on && at > alloc_at))) {
        errno = ENOMEM;
        return 1;
    }
    return 0;
}

void *malloc(size_t size) { return is_refused() ? NULL : __libc_malloc(size); }

void *calloc(size_t count, size_t size) { return is_refused() ? NULL : __libc_calloc(count, size); }

void *realloc(void *old, size_t size) { return is_refused() ? NULL : __libc_realloc(old, size); }

void *memalign(size_t alignment, size_t size) { return is_refused() ? NULL : __libc_memalign(alignment, size); }

void *aligned_alloc(size_t alignment, size_t size) { return memalign(alignment, size); }

int posix_memalign(void **made, size_t alignment, size_t size) {
    void *found = memalign(alignment, size);
    if (!found)
        return ENOMEM;
    *made = found;
    return 0;
}

// Whether this call fails, or finds nothing: then *answer is what it answers.
static int fails(long *calls, long at, int on, long error, ssize_t *answer) {
    if (!armed)
        return 0;
    ++*calls;
    if (!at || (*calls != at && !(on && *calls > at)))
        return 0;
    errno = error;
    *answer = error ? -1 : 0;
    return 1;
}

ssize_t read(int file, void *to, size_t count) {
    ssize_t answer;
    if (fails(&reads, read_at, 0, read_error, &answer))
        return answer;
    return syscall(SYS_read, file, to, short_ones && count ? 1 : count);
}

// Standard error isn't counted: what is told of a fault comes after it.
ssize_t write(int file, const void *from, size_t count) {
    ssize_t answer;
    if (file != 2 && fails(&writes, write_at, write_on, write_error, &answer))
        return answer;
    return syscall(SYS_write, file, from, short_ones && count && file != 2 ? 1 : count);
}

ssize_t readv(int file, const struct iovec *parts, int count) {
    return count > 0 ? read(file, parts[0].iov_base, parts[0].iov_len) : 0;
}

ssize_t writev(int file, const struct iovec *parts, int count) {
    for (int k = 0; k < count; k++)
        if (parts[k].iov_len)
            return write(file, parts[k].iov_base, parts[k].iov_len);
    return 0;
}

// One thread alone starts and joins the others.
int pthread_create(pthread_t *made, const pthread_attr_t *how, void *(*run)(void *), void *given) {
    asked++;
    if (thread_at && (asked == thread_at || (thread_on && asked > thread_at)))
        return EAGAIN;
    int error = real_create(made, how, run, given);
    started += !error;
    return error;
}

int pthread_join(pthread_t thread, void **answer) {
    int error = real_join(thread, answer);
    joined += !error;
    return error;
}
