/* Refuses calls of a program that it is loaded before (LD_PRELOAD): the memory allocation whose number, counted from 1, is REFUSE, the
 * read with the number REFUSE_READ, and the write with the number REFUSE_WRITE. A read or a write fails with the error number
 * REFUSE_ERROR (EIO where it isn't set); where that is 0, the call succeeds and transfers nothing. A refused call creates the file
 * that REFUSED names. All other calls are carried out; where PIECE is set, a read or a write transfers at most so many bytes. Where
 * ASKED names a file, the number of allocations that the program asked for is written there as it exits, if REFUSE is set; 0 refuses
 * none. */

#include <errno.h>
#include <fcntl.h>
#include <stdatomic.h>
#include <stddef.h>
#include <stdio.h>
#include <stdlib.h>
#include <sys/syscall.h>
#include <unistd.h>

extern void *__libc_malloc(size_t size);
extern void *__libc_calloc(size_t count, size_t size);
extern void *__libc_realloc(void *old, size_t size);
extern void *__libc_memalign(size_t alignment, size_t size);

static atomic_long calls, reads, writes;

/* Counts a call of a kind, and returns whether it is the one to refuse; if so, creates the file that REFUSED names. */
static int is_the_one(const char *kind, atomic_long *count) {
    const char *which = getenv(kind);
    if (!which || atomic_fetch_add(count, 1) + 1 != atol(which))
        return 0;
    const char *mark = getenv("REFUSED");
    int file = mark ? open(mark, O_CREAT | O_WRONLY, 0600) : -1;
    if (file >= 0)
        close(file);
    return 1;
}

static void tell_calls(void) {
    const char *name = getenv("ASKED");
    int file = name ? open(name, O_CREAT | O_WRONLY | O_TRUNC, 0600) : -1;
    if (file < 0)
        return;
    char digits[24];
    int length = snprintf(digits, sizeof digits, "%ld", atomic_load(&calls));
    syscall(SYS_write, file, digits, (size_t)length);
    close(file);
}

/* The programs of this repository end by this call. */
__attribute__((noreturn)) void _exit(int status) {
    tell_calls();
    for (;;)
        syscall(SYS_exit_group, status);
}

static int is_refused(void) {
    if (!is_the_one("REFUSE", &calls))
        return 0;
    errno = ENOMEM;
    return 1;
}

static long number(const char *name, long otherwise) {
    const char *text = getenv(name);
    return text ? atol(text) : otherwise;
}

/* Sets errno, and returns the result of a refused read or write. */
static ssize_t refusal(void) {
    errno = number("REFUSE_ERROR", EIO);
    return errno ? -1 : 0;
}

static size_t piece(size_t size) {
    size_t most = number("PIECE", size);
    return size < most ? size : most;
}

ssize_t read(int file, void *bytes, size_t size) {
    return is_the_one("REFUSE_READ", &reads) ? refusal() : syscall(SYS_read, file, bytes, piece(size));
}

ssize_t write(int file, const void *bytes, size_t size) {
    return is_the_one("REFUSE_WRITE", &writes) ? refusal() : syscall(SYS_write, file, bytes, piece(size));
}

ssize_t __write(int file, const void *bytes, size_t size) {
    return write(file, bytes, size);
}

void *malloc(size_t size) {
    return is_refused() ? NULL : __libc_malloc(size);
}

void *calloc(size_t count, size_t size) {
    return is_refused() ? NULL : __libc_calloc(count, size);
}

void *realloc(void *old, size_t size) {
    return is_refused() ? NULL : __libc_realloc(old, size);
}

void *aligned_alloc(size_t alignment, size_t size) {
    return is_refused() ? NULL : __libc_memalign(alignment, size);
}

int posix_memalign(void **place, size_t alignment, size_t size) {
    if (is_refused())
        return ENOMEM;
    *place = __libc_memalign(alignment, size);
    return *place ? 0 : ENOMEM;
}
