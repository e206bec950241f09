// Loaded before the C library, refuses calls of a program: growths of memory, reads or writes.
//
//   REFUSE      what is refused: memory, read, write; short-read and short-write let one byte through
//   REFUSE_AT   the number of the call that is refused, from 1; 0: none
//   REFUSE_ALL  1: the calls after it too
//   REFUSE_TO   a file that takes the number of calls at the end
#define _GNU_SOURCE
#include <dlfcn.h>
#include <errno.h>
#include <fcntl.h>
#include <stdatomic.h>
#include <stdio.h>
#include <stdlib.h>
#include <string.h>
#include <sys/syscall.h>
#include <unistd.h>

static atomic_long calls;
static long at = -1;
static int all;
static char what[16];
static void *(*real_malloc)(size_t);
static void *(*real_realloc)(void *, size_t);

__attribute__((constructor)) static void begin(void) {
    real_malloc = dlsym(RTLD_NEXT, "malloc");
    real_realloc = dlsym(RTLD_NEXT, "realloc");
    const char *text = getenv("REFUSE");
    strncpy(what, text ? text : "", sizeof what - 1);
    text = getenv("REFUSE_ALL");
    all = text && *text == '1';
    text = getenv("REFUSE_AT");
    at = text ? atol(text) : 0;
}

static void end(void) {
    const char *name = getenv("REFUSE_TO");
    long count = atomic_load(&calls);
    at = -1;
    int file = name ? open(name, O_WRONLY | O_CREAT | O_TRUNC, 0644) : -1;
    if (file >= 0) {
        char text[32];
        int length = snprintf(text, sizeof text, "%ld\n", count);
        syscall(SYS_write, file, text, (size_t)length);
        close(file);
    }
}

// the program ends by this call, and runs no destructors
void _exit(int status) {
    end();
    for (;;)
        syscall(SYS_exit_group, status);
}

static int is_refused(const char *kind) {
    if (at < 0 || strcmp(what, kind) != 0)
        return 0;
    long call = atomic_fetch_add(&calls, 1) + 1;
    return call == at || (all && at > 0 && call > at);
}

void *malloc(size_t size) {
    if (is_refused("memory")) {
        errno = ENOMEM;
        return NULL;
    }
    return real_malloc ? real_malloc(size) : NULL;
}

void *realloc(void *old, size_t size) {
    if (is_refused("memory")) {
        errno = ENOMEM;
        return NULL;
    }
    return real_realloc ? real_realloc(old, size) : NULL;
}

ssize_t read(int file, void *into, size_t size) {
    if (is_refused("read")) {
        errno = EIO;
        return -1;
    }
    if (size > 1 && strcmp(what, "short-read") == 0)
        size = 1;
    return syscall(SYS_read, file, into, size);
}

ssize_t write(int file, const void *bytes, size_t size) {
    if (file == 1 && is_refused("write")) {
        errno = EIO;
        return -1;
    }
    if (size > 1 && strcmp(what, "short-write") == 0)
        size = 1;
    return syscall(SYS_write, file, bytes, size);
}
