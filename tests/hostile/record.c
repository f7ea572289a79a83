// Records, in the file that RECORD_TO names, each read, write and sync of the file that RECORD_OF names and each write to standard output
// of the program that it is loaded before, in their order. An entry is a letter (r: a read of the file, w: a write to it, s: a sync of it,
// f: a sync of it that failed, d: the system is asked to drop its copies of all pages, n: a sync of the folder that has its name, l: its length
// was set, o: a write to standard output), two numbers of 8 bytes (where it begins; its length) and the bytes written.
//
// RECORD_FAILS_AT makes one sync of the file fail, counted from 1 on: the system isn't asked. Where RECORD_LIMIT names a loop device and a number
// of bytes, the system is asked while the device is cut off there. RECORD_DROPS_TO names a file with the bytes of a medium: where the copies of all
// pages are dropped, the recorded file gets these bytes.
#define _GNU_SOURCE
#include <errno.h>
#include <fcntl.h>
#include <linux/loop.h>
#include <stdint.h>
#include <stdio.h>
#include <stdlib.h>
#include <string.h>
#include <sys/ioctl.h>
#include <sys/stat.h>
#include <sys/syscall.h>
#include <unistd.h>

static int log_file = -1;

static int is_recorded(int file) {
    struct stat one, other;
    const char *of = getenv("RECORD_OF");
    return of && fstat(file, &one) == 0 && stat(of, &other) == 0 && one.st_dev == other.st_dev && one.st_ino == other.st_ino;
}

// Whether it is the folder that has the recorded file's name.
static int is_folder(int file) {
    struct stat one, other;
    char path[4096];
    const char *of = getenv("RECORD_OF");
    const char *slash = of ? strrchr(of, '/') : NULL;
    if (!slash || snprintf(path, sizeof path, "%.*s", (int)(slash - of) + 1, of) >= (int)sizeof path)
        return 0;
    return fstat(file, &one) == 0 && stat(path, &other) == 0 && one.st_dev == other.st_dev && one.st_ino == other.st_ino;
}

static void put(const void *bytes, size_t length) {
    const char *from = bytes;
    while (length > 0) {
        long done = syscall(SYS_write, log_file, from, length);
        if (done <= 0)
            _exit(99);
        from += done;
        length -= (size_t)done;
    }
}

static void record_call(char kind, uint64_t at, uint64_t length, const void *bytes) {
    if (log_file < 0) {
        const char *to = getenv("RECORD_TO");
        if (!to)
            return;
        log_file = (int)syscall(SYS_openat, AT_FDCWD, to, O_CREAT | O_WRONLY | O_APPEND, 0644);
    }
    put(&kind, 1);
    put(&at, 8);
    put(&length, 8);
    if (bytes)
        put(bytes, length);
}

ssize_t pread64(int file, void *bytes, size_t length, off64_t at) {
    ssize_t done = syscall(SYS_pread64, file, bytes, length, at);
    if (done > 0 && is_recorded(file))
        record_call('r', (uint64_t)at, (uint64_t)done, NULL);
    return done;
}

ssize_t pread(int file, void *bytes, size_t length, off_t at) { return pread64(file, bytes, length, at); }

ssize_t read(int file, void *bytes, size_t length) {
    off_t at = lseek(file, 0, SEEK_CUR);
    ssize_t done = syscall(SYS_read, file, bytes, length);
    if (done > 0 && is_recorded(file))
        record_call('r', (uint64_t)at, (uint64_t)done, NULL);
    return done;
}

ssize_t pwrite64(int file, const void *bytes, size_t length, off64_t at) {
    ssize_t done = syscall(SYS_pwrite64, file, bytes, length, at);
    if (done > 0 && is_recorded(file))
        record_call('w', (uint64_t)at, (uint64_t)done, bytes);
    return done;
}

ssize_t pwrite(int file, const void *bytes, size_t length, off_t at) { return pwrite64(file, bytes, length, at); }

ssize_t write(int file, const void *bytes, size_t length) {
    off_t at = lseek(file, 0, SEEK_CUR);
    ssize_t done = syscall(SYS_write, file, bytes, length);
    if (done > 0 && file == 1)
        record_call('o', 0, (uint64_t)done, bytes);
    else if (done > 0 && is_recorded(file))
        record_call('w', (uint64_t)at, (uint64_t)done, bytes);
    return done;
}

// Cuts a loop device off at a number of bytes; 0 gives all of it back.
static void limit(const char *device, uint64_t bytes) {
    struct loop_info64 info;
    int loop = open(device, O_RDWR);
    if (loop < 0 || ioctl(loop, LOOP_GET_STATUS64, &info) != 0)
        _exit(98);
    info.lo_sizelimit = bytes;
    if (ioctl(loop, LOOP_SET_STATUS64, &info) != 0)
        _exit(98);
    close(loop);
}

static int failing_sync(int file, long call) {
    char device[256];
    unsigned long long bytes;
    const char *words = getenv("RECORD_LIMIT");
    int failed = -1, error = EIO;
    if (words) {
        if (sscanf(words, "%255s %llu", device, &bytes) != 2)
            _exit(98);
        limit(device, bytes);
        failed = (int)syscall(call, file);
        error = errno;
        limit(device, 0);
    }
    errno = error;
    return failed;
}

static int synced(int file, long call) {
    static long count;
    const char *fails_at = getenv("RECORD_FAILS_AT");
    const int recorded = is_recorded(file);
    const int fails = recorded && fails_at && ++count == atol(fails_at);
    const int failed = fails ? failing_sync(file, call) : (int)syscall(call, file);
    const int error = errno;
    if (recorded)
        record_call(failed ? 'f' : 's', 0, 0, NULL);
    else if (!failed && is_folder(file))
        record_call('n', 0, 0, NULL);
    errno = error;
    return failed;
}

int fsync(int file) { return synced(file, SYS_fsync); }

int fdatasync(int file) { return synced(file, SYS_fdatasync); }

// The recorded file gets the bytes of the medium.
static void drop(void) {
    char part[4096];
    const char *medium = getenv("RECORD_DROPS_TO");
    int from = medium ? open(medium, O_RDONLY) : -1, to = open(getenv("RECORD_OF"), O_WRONLY);
    ssize_t got;
    for (off_t at = 0; medium && (got = syscall(SYS_pread64, from, part, sizeof part, at)) > 0; at += got)
        if (syscall(SYS_pwrite64, to, part, (size_t)got, at) != got)
            _exit(97);
    close(from);
    close(to);
}

int posix_fadvise64(int file, off64_t at, off64_t length, int advice) {
    if (advice == POSIX_FADV_DONTNEED && at == 0 && length == 0 && is_recorded(file)) {
        record_call('d', 0, 0, NULL);
        drop();
    }
    return syscall(SYS_fadvise64, file, at, length, advice) == 0 ? 0 : errno;
}

int posix_fadvise(int file, off_t at, off_t length, int advice) { return posix_fadvise64(file, at, length, advice); }

int ftruncate64(int file, off64_t length) {
    int failed = (int)syscall(SYS_ftruncate, file, length);
    if (!failed && is_recorded(file))
        record_call('l', 0, (uint64_t)length, NULL);
    return failed;
}

int ftruncate(int file, off_t length) { return ftruncate64(file, length); }
