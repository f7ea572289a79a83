// Loaded before a program: after FLIP_AFTER reads at an offset, one bit of the last byte of the file FLIP_NAME changes.
#define _GNU_SOURCE
#include <dlfcn.h>
#include <fcntl.h>
#include <stdlib.h>
#include <unistd.h>

static void flip_last(const char *name) {
    int file = open(name, O_RDWR);
    off_t last = lseek(file, -1, SEEK_END);
    char byte = 0;
    if (file < 0 || read(file, &byte, 1) != 1) _exit(99);
    byte ^= 1;
    if (lseek(file, last, SEEK_SET) != last || write(file, &byte, 1) != 1 || close(file) != 0) _exit(99);
}

static ssize_t counted(const char *call, int file, void *bytes, size_t count, off_t offset) {
    static int reads;
    ssize_t (*next)(int, void *, size_t, off_t) = (ssize_t (*)(int, void *, size_t, off_t))dlsym(RTLD_NEXT, call);
    ssize_t found = next(file, bytes, count, offset);
    if (++reads == atoi(getenv("FLIP_AFTER"))) flip_last(getenv("FLIP_NAME"));
    return found;
}

ssize_t pread(int file, void *bytes, size_t count, off_t offset) { return counted("pread", file, bytes, count, offset); }

ssize_t pread64(int file, void *bytes, size_t count, off_t offset) { return counted("pread64", file, bytes, count, offset); }
