/* Preloaded before a program, makes the Nth of its reads and writes fail, or move one byte alone, or the Nth of its allocations fail.

   NTH_CALL is N, counted from 1 over reads and writes together; NTH_KIND is `fail`, or `short`, which counts the calls of several bytes
   alone, or `grow`, which counts allocations in place of reads and writes: what is got, and what is made longer. When the call comes,
   the file NTH_CAME gets the word `read`, `write` or `allocation`. Where NTH_COUNT is set, the file of that name gets at the end how
   many calls there were. */

#define _GNU_SOURCE
#include <dlfcn.h>
#include <errno.h>
#include <fcntl.h>
#include <stdatomic.h>
#include <stdio.h>
#include <stdlib.h>
#include <string.h>
#include <sys/syscall.h>
#include <sys/types.h>
#include <unistd.h>

typedef ssize_t reader(int, void *, size_t);
typedef ssize_t writer(int, const void *, size_t);

/* The allocations of the C library itself, by the names under which it keeps them. */
extern void *__libc_malloc(size_t);
extern void *__libc_realloc(void *, size_t);

static atomic_ulong calls;
static unsigned long number;
static int fails, shortens, grows;

static void __attribute__((constructor)) begin(void) {
    const char *kind = getenv("NTH_KIND"), *call = getenv("NTH_CALL");
    number = call ? strtoul(call, NULL, 10) : 0;
    fails = kind && !strcmp(kind, "fail");
    shortens = kind && !strcmp(kind, "short");
    grows = kind && !strcmp(kind, "grow");
}

static writer *real_write(void) {
    return (writer *)dlsym(RTLD_NEXT, "write");
}

static void note(const char *word) {
    int file = open(getenv("NTH_CAME"), O_WRONLY | O_CREAT | O_TRUNC, 0600);
    if (file >= 0) {
        real_write()(file, word, strlen(word));
        close(file);
    }
}

/* How many bytes the call may move; -1 where it has to fail. */
static ssize_t allowed(const char *word, size_t size) {
    if (!(fails || (shortens && size > 1)) || atomic_fetch_add(&calls, 1) + 1 != number)
        return (ssize_t)size;
    note(word);
    if (shortens)
        return 1;
    errno = EIO;
    return -1;
}

ssize_t read(int file, void *bytes, size_t size) {
    ssize_t most = allowed("read", size);
    return most < 0 ? most : ((reader *)dlsym(RTLD_NEXT, "read"))(file, bytes, (size_t)most);
}

ssize_t write(int file, const void *bytes, size_t size) {
    ssize_t most = allowed("write", size);
    return most < 0 ? most : real_write()(file, bytes, (size_t)most);
}

/* Whether the allocation has to fail. */
static int is_refused(void) {
    if (!grows || atomic_fetch_add(&calls, 1) + 1 != number)
        return 0;
    note("allocation");
    errno = ENOMEM;
    return 1;
}

void *malloc(size_t size) {
    return is_refused() ? NULL : __libc_malloc(size);
}

void *realloc(void *held, size_t size) {
    return is_refused() ? NULL : __libc_realloc(held, size);
}

static void count_out(void) {
    const char *place = getenv("NTH_COUNT");
    char text[32];
    int file, size;
    if (!place)
        return;
    size = snprintf(text, sizeof text, "%lu", atomic_load(&calls));
    file = open(place, O_WRONLY | O_CREAT | O_TRUNC, 0600);
    if (file >= 0) {
        real_write()(file, text, (size_t)size);
        close(file);
    }
}

/* A program of the toolchain ends by this call, behind which no destructor comes. */
void _exit(int status) {
    count_out();
    for (;;)
        syscall(SYS_exit_group, status);
}
