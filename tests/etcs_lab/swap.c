// Loaded before a program: as soon as the file SWAP_NAME is open, the file SWAP_FOR takes its name.
#define _GNU_SOURCE
#include <dlfcn.h>
#include <fcntl.h>
#include <stdarg.h>
#include <stdio.h>
#include <stdlib.h>
#include <string.h>

static int opened(const char *call, const char *path, int flags, int mode) {
    static int swapped;
    int (*next)(const char *, int, ...) = (int (*)(const char *, int, ...))dlsym(RTLD_NEXT, call);
    int file = next(path, flags, mode);
    const char *name = getenv("SWAP_NAME");
    if (file >= 0 && !swapped && name && !strcmp(path, name)) {
        swapped = 1;
        rename(getenv("SWAP_FOR"), name);
    }
    return file;
}

int open(const char *path, int flags, ...) {
    va_list rest;
    va_start(rest, flags);
    int mode = va_arg(rest, int);
    va_end(rest);
    return opened("open", path, flags, mode);
}

int open64(const char *path, int flags, ...) {
    va_list rest;
    va_start(rest, flags);
    int mode = va_arg(rest, int);
    va_end(rest);
    return opened("open64", path, flags, mode);
}
