/* A library to be loaded before a program (LD_PRELOAD): it refuses the program's allocation of the number that the variable
   REFUSE gives, counted from 1, and appends one byte for each allocation to the file that TELL names, if it does. Where the
   variable TAKE is set, standard output takes so many bytes and then fails. */
#define _GNU_SOURCE
#include <dlfcn.h>
#include <errno.h>
#include <fcntl.h>
#include <stdlib.h>
#include <unistd.h>

static unsigned long count;
static unsigned long refused;
static int told = -1;

static int is_refused(void) {
    if (count == 0) {
        const char *number = getenv("REFUSE");
        refused = number ? strtoul(number, NULL, 10) : 0;
        const char *file = getenv("TELL");
        told = file ? open(file, O_WRONLY | O_APPEND) : -1;
    }
    if (told >= 0 && write(told, ".", 1) != 1) {
        abort();
    }
    return __atomic_add_fetch(&count, 1, __ATOMIC_SEQ_CST) == refused;
}

void *malloc(size_t size) {
    static void *(*next)(size_t);
    if (!next) {
        next = (void *(*)(size_t))dlsym(RTLD_NEXT, "malloc");
    }
    return is_refused() ? NULL : next(size);
}

void *realloc(void *block, size_t size) {
    static void *(*next)(void *, size_t);
    if (!next) {
        next = (void *(*)(void *, size_t))dlsym(RTLD_NEXT, "realloc");
    }
    return is_refused() ? NULL : next(block, size);
}

ssize_t write(int file, const void *bytes, size_t size) {
    static ssize_t (*next)(int, const void *, size_t);
    static size_t left;
    static int limited = -1;
    if (!next) {
        next = (ssize_t (*)(int, const void *, size_t))dlsym(RTLD_NEXT, "write");
        const char *most = getenv("TAKE");
        limited = most != NULL;
        left = most ? strtoul(most, NULL, 10) : 0;
    }
    if (file != STDOUT_FILENO || !limited) {
        return next(file, bytes, size);
    }
    if (left == 0) {
        errno = ENOSPC;
        return -1;
    }
    ssize_t taken = next(file, bytes, size < left ? size : left);
    left -= taken > 0 ? (size_t)taken : 0;
    return taken;
}
