/* Refuses one allocation of a program that it is preloaded into.

   The variable REFUSE is the number of the allocation, counted from 1. If COUNT is `all`,
   allocations count from the start of the program, and otherwise from its line `begin` to its line
   `end`. If an allocation is refused, the program prints the line `refused` to the standard error at
   its exit. */
#include <errno.h>
#include <stdlib.h>
#include <string.h>
#include <sys/syscall.h>
#include <sys/uio.h>
#include <unistd.h>

/* The functions of glibc under their other names. */
extern void *__libc_malloc(size_t);
extern void *__libc_calloc(size_t, size_t);
extern void *__libc_realloc(void *, size_t);
extern void *__libc_memalign(size_t, size_t);

static long left;
static int counts, met;

__attribute__((constructor)) static void set_up(void) {
    const char *number = getenv("REFUSE"), *count = getenv("COUNT");
    left = number ? atol(number) : 0;
    counts = count && strcmp(count, "all") == 0;
}

__attribute__((destructor)) static void report(void) {
    if (met)
        syscall(SYS_write, 2, "refused\n", 8);
}

static int is_refused(void) {
    if (!counts || left == 0 || --left > 0)
        return 0;
    met = 1;
    errno = ENOMEM;
    return 1;
}

void *malloc(size_t size) { return is_refused() ? NULL : __libc_malloc(size); }

void *calloc(size_t count, size_t size) {
    return is_refused() ? NULL : __libc_calloc(count, size);
}

void *realloc(void *old, size_t size) { return is_refused() ? NULL : __libc_realloc(old, size); }

void *aligned_alloc(size_t alignment, size_t size) {
    return is_refused() ? NULL : __libc_memalign(alignment, size);
}

int posix_memalign(void **made, size_t alignment, size_t size) {
    void *block = is_refused() ? NULL : __libc_memalign(alignment, size);
    if (block)
        *made = block;
    return block ? 0 : ENOMEM;
}

static void notice(int file, const char *text, size_t length) {
    if (file == 1 && length >= 5 && memcmp(text, "begin", 5) == 0)
        counts = 1;
    if (file == 1 && length >= 3 && memcmp(text, "end", 3) == 0)
        counts = 0;
}

ssize_t write(int file, const void *text, size_t length) {
    notice(file, text, length);
    return syscall(SYS_write, file, text, length);
}

ssize_t writev(int file, const struct iovec *parts, int count) {
    if (count > 0)
        notice(file, parts[0].iov_base, parts[0].iov_len);
    return syscall(SYS_writev, file, parts, count);
}
