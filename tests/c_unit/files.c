/* c/include/etcs_file.h: what each call answers, also where the system fails or does a part of what it was handed.
 *
 *     files FOLDER    makes its files in this folder */
#define _POSIX_C_SOURCE 200809L
#include <errno.h>
#include <fcntl.h>
#include <stdlib.h>
#include <string.h>
#include <sys/stat.h>
#include <sys/types.h>
#include <unistd.h>

/* What the system is to do wrong: how many writes and reads it does before they fail, a number that each sync fails with, and that each sync of a
 * folder and each drop does. */
static int writes_left = -1, reads_left = -1, fails_sync, fails_folder, fails_drop, does_parts;

/* The calls in their order, a letter for those of a kind that come together: W write, R read, S sync, D drop of the system's copies, F sync of a
 * folder; how many bytes were read; and which folder was synced last. */
static char order[64];
static size_t bytes_read;
static ino_t folder;

static void note(char call) {
    const size_t len = strlen(order);
    if (len + 1 < sizeof order && (len == 0 || order[len - 1] != call))
        order[len] = call;
}

static void forget(void) {
    memset(order, 0, sizeof order);
    bytes_read = 0;
    folder = 0;
}

static ssize_t planted_write(int descriptor, const void *bytes, size_t len, off_t at) {
    static int interrupted;
    if (does_parts && (interrupted = !interrupted)) {
        errno = EINTR;
        return -1;
    }
    if (writes_left == 0) {
        errno = EIO;
        return -1;
    }
    if (writes_left > 0)
        writes_left--;
    note('W');
    return pwrite(descriptor, bytes, does_parts && len > 100 ? 100 : len, at);
}

static ssize_t planted_read(int descriptor, void *bytes, size_t len, off_t at) {
    static int interrupted;
    if (does_parts && (interrupted = !interrupted)) {
        errno = EINTR;
        return -1;
    }
    if (reads_left == 0) {
        errno = EIO;
        return -1;
    }
    if (reads_left > 0)
        reads_left--;
    note('R');
    const ssize_t got = pread(descriptor, bytes, does_parts && len > 100 ? 100 : len, at);
    bytes_read += got > 0 ? (size_t)got : 0;
    return got;
}

static int planted_sync(int descriptor) {
    struct stat of;
    if (fstat(descriptor, &of) == 0 && S_ISDIR(of.st_mode)) {
        note('F');
        folder = of.st_ino;
        errno = fails_folder;
        return fails_folder ? -1 : fsync(descriptor);
    }
    note('S');
    errno = fails_sync;
    return fails_sync ? -1 : fsync(descriptor);
}

static int planted_drop(int descriptor, off_t at, off_t len, int advice) {
    note(at == 0 && len == 0 && advice == POSIX_FADV_DONTNEED ? 'D' : '?');
    return fails_drop ? fails_drop : posix_fadvise(descriptor, at, len, advice);
}

#define pwrite planted_write
#define pread planted_read
#define fsync planted_sync
#define posix_fadvise planted_drop
#include "etcs_file.h"

#include "medium.h"

static etcs_unit_output outputs[ETCS_UNIT_OUTPUTS];
static uint32_t count;

static long size_of(const char *path) {
    struct stat facts;
    return stat(path, &facts) == 0 ? (long)facts.st_size : -1;
}

static void formats(void) {
    etcs_file file = {0};
    is("1 slot", etcs_file_format(&file, "none", 1), ETCS_FILE_UNIT);
    is("its status", file.status, ETCS_UNIT_BAD_SLOTS);
    is("no file is made", size_of("none") == -1, 1);
    is("a folder", etcs_file_format(&file, ".", 4), ETCS_FILE_CANT_OPEN);
    is("its number", (uint64_t)file.error, EISDIR);
    is("a folder that isn't there", etcs_file_format(&file, "none/image", 4), ETCS_FILE_CANT_OPEN);
    is("its number", (uint64_t)file.error, ENOENT);
    is("a device", etcs_file_format(&file, "/dev/null", 4), ETCS_FILE_WRONG_SIZE);
    /* four writes of zeros, a gate for each slot, and the first sector */
    for (int before = 0; before < 9; before++) {
        writes_left = before;
        is("a write that fails", etcs_file_format(&file, "image", 4), ETCS_FILE_CANT_WRITE);
        is("its number", (uint64_t)file.error, EIO);
        is("no zeros stay where not all are written", (uint64_t)size_of("image"), before < 4 ? 0 : 12800);
    }
    writes_left = -1;
    fails_sync = EIO;
    is("a sync that fails", etcs_file_format(&file, "image", 4), ETCS_FILE_CANT_SYNC);
    fails_sync = 0;
    is("4 slots", etcs_file_format(&file, "image", 4), ETCS_FILE_OK);
    is("its bytes", (uint64_t)size_of("image"), 12800);
    is("no file is open", (uint64_t)(int64_t)file.descriptor, (uint64_t)-1);
}

/* The bytes of a file, for the caller to free. */
static uint8_t *bytes_in(const char *path, size_t *len) {
    const int from = open(path, O_RDONLY);
    *len = (size_t)size_of(path);
    uint8_t *bytes = (uint8_t *)calloc(1, *len + 1);
    is("its bytes are read", read(from, bytes, *len) == (ssize_t)*len, 1);
    close(from);
    return bytes;
}

/* Writes these bytes at the beginning of a file, which is made where there is none. */
static void puts_first(const char *path, const void *bytes, size_t len) {
    const int to = open(path, O_WRONLY | O_CREAT, 0666);
    is("they are written", write(to, bytes, len) == (ssize_t)len, 1);
    close(to);
}

/* A format that changes nothing of a file, whatever its slots. */
static void leaves(const char *path) {
    etcs_file file = {0};
    size_t before, after;
    uint8_t *const bytes = bytes_in(path, &before);
    is("a format", etcs_file_format(&file, path, 4), ETCS_FILE_NOT_EMPTY);
    is("no number", (uint64_t)file.error, 0);
    is("of another size", etcs_file_format(&file, path, 8), ETCS_FILE_NOT_EMPTY);
    is("no file is open", (uint64_t)(int64_t)file.descriptor, (uint64_t)-1);
    uint8_t *const found = bytes_in(path, &after);
    is("the same bytes", before == after && memcmp(bytes, found, before) == 0, 1);
    free(bytes);
    free(found);
}

/* The number of the first event after the next power-up of a file: 1 of an empty journal. */
static uint64_t next_event(const char *path) {
    etcs_file file = {0};
    etcs_unit unit = {0};
    is("open", etcs_file_open(&file, path, &unit, ETCS_COLD_UNKNOWN), ETCS_FILE_OK);
    is("power-up", etcs_file_flush(&file, &unit, outputs, &count), ETCS_FILE_OK);
    is("an input", etcs_unit_clock(&unit, 1), ETCS_UNIT_OK);
    is("flush", etcs_file_flush(&file, &unit, outputs, &count), ETCS_FILE_OK);
    is("close", etcs_file_close(&file, &unit), ETCS_FILE_OK);
    return outputs[0].event;
}

/* A format makes a journal where there is none, and loses nothing: a journal goes on, also one whose first sector has a bit altered, and a text stays.
 * Only a wipe empties them. */
static void keeps(void) {
    static const uint8_t none[ETCS_UNIT_SECTOR] = {0};
    etcs_file file = {0};
    size_t len;
    is("format", etcs_file_format(&file, "held", 4), ETCS_FILE_OK);
    is("its first event", next_event("held"), 1);
    leaves("held");
    is("it goes on", next_event("held"), 3);
    uint8_t *const bytes = bytes_in("held", &len);
    bytes[0] ^= 0x40;
    puts_first("held", bytes, 1);
    leaves("held");
    bytes[0] ^= 0x40;
    puts_first("held", bytes, 1);
    is("mended, it goes on", next_event("held"), 5);
    free(bytes);
    puts_first("letter", "a", 1);
    leaves("letter");
    is("a wipe", etcs_file_wipe(&file, "held", 8), ETCS_FILE_OK);
    is("its bytes", (uint64_t)size_of("held"), 25088);
    is("the first event", next_event("held"), 1);
    is("a wipe of a text", etcs_file_wipe(&file, "letter", 2), ETCS_FILE_OK);
    is("the first event", next_event("letter"), 1);
    puts_first("held", none, sizeof none);
    is("a format where power was lost in one", etcs_file_format(&file, "held", 4), ETCS_FILE_OK);
    is("the first event", next_event("held"), 1);
    puts_first("empty", none, 0);
    is("a format of an empty file", etcs_file_format(&file, "empty", 2), ETCS_FILE_OK);
    is("the first event", next_event("empty"), 1);
}

static ino_t number_of(const char *path) {
    struct stat of;
    return stat(path, &of) == 0 ? of.st_ino : 0;
}

/* The folder of a new file is synced, also where links lead there, and before a format answers OK. */
static void names(void) {
    etcs_file file = {0};
    char here[4096] = "";
    is("folders", mkdir("one", 0777) == 0 && mkdir("one/two", 0777) == 0 && mkdir("three", 0777) == 0, 1);
    is("links", symlink("../one/two/far", "three/link") == 0 && symlink("three/link", "image.link") == 0 && symlink("circle", "circle") == 0, 1);
    forget();
    is("a new file", etcs_file_format(&file, "new", 2), ETCS_FILE_OK);
    is("its folder is synced, and it is itself at the end", strchr(order, 'F') != NULL && order[strlen(order) - 1] == 'S', 1);
    is("this folder", folder, number_of("."));
    is("in another folder", etcs_file_format(&file, "one/two/new", 2), ETCS_FILE_OK);
    is("that folder", folder, number_of("one/two"));
    is("by a whole path", getcwd(here, sizeof here - 16) == here && etcs_file_format(&file, strcat(here, "/three/new"), 2) == ETCS_FILE_OK, 1);
    is("that folder", folder, number_of("three"));
    is("by two links", etcs_file_format(&file, "image.link", 2), ETCS_FILE_OK);
    is("the folder where they lead", folder, number_of("one/two"));
    is("there it is", (uint64_t)size_of("one/two/far"), 6656);
    is("links that lead nowhere", etcs_file_format(&file, "circle", 2), ETCS_FILE_CANT_OPEN);
    fails_folder = EIO;
    is("a folder whose sync fails", etcs_file_format(&file, "newer", 2), ETCS_FILE_CANT_SYNC);
    is("its number", (uint64_t)file.error, EIO);
    fails_folder = EINVAL;
    is("a folder that has no sync", etcs_file_format(&file, "newer", 2), ETCS_FILE_OK);
    fails_folder = 0;
}

/* A file is synced, and the system's copies are dropped, before it is read. */
static void settles(void) {
    etcs_file file = {0};
    etcs_unit unit = {0};
    forget();
    is("open", etcs_file_open(&file, "image", &unit, 0), ETCS_FILE_OK);
    is("a sync, a drop, and reads", strcmp(order, "SDR") == 0, 1);
    is("close", etcs_file_close(&file, &unit), ETCS_FILE_OK);
    forget();
    fails_sync = EIO;
    is("a sync that fails", etcs_file_open(&file, "image", &unit, 0), ETCS_FILE_CANT_SYNC);
    is("its number", (uint64_t)file.error, EIO);
    is("nothing is read", strcmp(order, "S") == 0, 1);
    fails_sync = EROFS;
    is("a file that takes no writes", etcs_file_open(&file, "image", &unit, 0), ETCS_FILE_OK);
    is("close", etcs_file_close(&file, &unit), ETCS_FILE_OK);
    fails_sync = 0;
    forget();
    fails_drop = ENOSYS;
    is("a system that drops nothing", etcs_file_open(&file, "image", &unit, 0), ETCS_FILE_CANT_SYNC);
    is("its number", (uint64_t)file.error, ENOSYS);
    is("nothing is read", strcmp(order, "SD") == 0, 1);
    fails_drop = 0;
    is("the unit isn't open", unit.is_open, 0);
}

/* What is open stays so, with its lock, where it is opened or formatted once more. */
static void open_already(void) {
    etcs_file file = {0}, other = {0};
    etcs_unit unit = {0}, second = {0};
    is("open", etcs_file_open(&file, "image", &unit, 0), ETCS_FILE_OK);
    const int descriptor = file.descriptor;
    is("once more", etcs_file_open(&file, "image", &unit, 0), ETCS_FILE_UNIT);
    is("its status", file.status, ETCS_UNIT_IS_OPEN);
    is("the file, with another unit", etcs_file_open(&file, "new", &second, 0), ETCS_FILE_UNIT);
    is("its status", file.status, ETCS_UNIT_IS_OPEN);
    is("that unit isn't open", second.is_open, 0);
    forget();
    is("the unit, with another file", etcs_file_open(&other, "new", &unit, 0), ETCS_FILE_UNIT);
    is("its status", other.status, ETCS_UNIT_IS_OPEN);
    is("that file isn't touched", order[0] == 0, 1);
    is("a format of it", etcs_file_format(&file, "new", 4), ETCS_FILE_UNIT);
    is("its status", file.status, ETCS_UNIT_IS_OPEN);
    is("a wipe of it", etcs_file_wipe(&file, "new", 4), ETCS_FILE_UNIT);
    is("its status", file.status, ETCS_UNIT_IS_OPEN);
    is("the same descriptor", (uint64_t)file.descriptor, (uint64_t)descriptor);
    is("the lock is held", etcs_file_open(&other, "image", &second, 0), ETCS_FILE_LOCKED);
    is("the other file isn't", etcs_file_open(&other, "new", &second, 0), ETCS_FILE_OK);
    is("close the other", etcs_file_close(&other, &second), ETCS_FILE_OK);
    is("the unit goes on", etcs_file_flush(&file, &unit, outputs, &count), ETCS_FILE_OK);
    is("close", etcs_file_close(&file, &unit), ETCS_FILE_OK);
    is("the lock is given back", etcs_file_open(&file, "image", &unit, 0), ETCS_FILE_OK);
    is("close", etcs_file_close(&file, &unit), ETCS_FILE_OK);
}

/* A file as the medium of an executive: locked and settled, read and written by sectors, without a unit. */
static void as_medium(void) {
    etcs_file file = {0}, other = {0};
    etcs_unit unit = {0};
    uint64_t sectors = 7;
    uint8_t bytes[ETCS_UNIT_SECTOR], again[ETCS_UNIT_SECTOR];
    etcs_unit_request_info request = {1, 1, ETCS_REQUEST_WRITE}, sync = {0, 0, ETCS_REQUEST_SYNC};
    is("no such file", etcs_file_open_medium(&file, "nowhere", &sectors), ETCS_FILE_CANT_OPEN);
    is("its number", (uint64_t)file.error, ENOENT);
    is("no sectors are written", sectors, 7);
    is("a format", etcs_file_format(&file, "medium", 8), ETCS_FILE_OK);
    forget();
    is("a medium", etcs_file_open_medium(&file, "medium", &sectors), ETCS_FILE_OK);
    is("is settled", strcmp(order, "SD") == 0, 1);
    is("its sectors", sectors, 49);
    is("once more", etcs_file_open_medium(&file, "medium", &sectors), ETCS_FILE_UNIT);
    is("its status", file.status, ETCS_UNIT_IS_OPEN);
    is("its lock", etcs_file_open_medium(&other, "medium", &sectors), ETCS_FILE_LOCKED);
    memset(bytes, 0x5A, sizeof bytes);
    forget();
    is("a write", (uint64_t)etcs_file_carry_out_request(&file, &request, bytes), 1);
    is("a sync", (uint64_t)etcs_file_carry_out_request(&file, &sync, bytes), 1);
    is("their order", strcmp(order, "WS") == 0, 1);
    is("a read", (uint64_t)etcs_file_read_sector(&file, 1, again), 1);
    is("what was written", memcmp(bytes, again, sizeof bytes) == 0, 1);
    is("a read beyond the end", (uint64_t)etcs_file_read_sector(&file, 49, again), 0);
    is("close", etcs_file_close(&file, &unit), ETCS_FILE_UNIT);
    is("a read of a closed file", (uint64_t)etcs_file_read_sector(&file, 1, again), 0);
    is("a write to it", (uint64_t)etcs_file_carry_out_request(&file, &request, bytes), 0);
}

/* A file of zeros is none: no descriptor is closed, nor written to. */
static void zeros(void) {
    static uint8_t before[6656], after[6656];
    etcs_file file = {0}, none = {0};
    etcs_unit unit = {0};
    const int zero = open("new", O_RDWR);
    is("descriptor 0", (uint64_t)dup2(zero, 0), 0);
    is("its bytes", read(zero, before, sizeof before) == (ssize_t)sizeof before && lseek(zero, 0, SEEK_SET) == 0, 1);
    is("close a file of zeros", etcs_file_close(&none, &unit), ETCS_FILE_UNIT);
    is("descriptor 0 is open", fcntl(0, F_GETFD) >= 0, 1);
    memset(&none, 0, sizeof none);
    is("open", etcs_file_open(&file, "image", &unit, 0), ETCS_FILE_OK);
    forget();
    is("flush to a file of zeros", etcs_file_flush(&none, &unit, outputs, &count) != ETCS_FILE_OK, 1);
    is("its number", (uint64_t)none.error, EBADF);
    is("the same bytes", read(zero, after, sizeof after) == (ssize_t)sizeof after && memcmp(before, after, sizeof after) == 0, 1);
    is("close", etcs_file_close(&file, &unit), ETCS_FILE_OK);
    close(zero);
}

/* Of a great file that isn't a journal of its size the first sector alone is read. */
static void great(void) {
    etcs_file file = {0};
    etcs_unit unit = {0};
    uint8_t first[ETCS_UNIT_SECTOR];
    const int from = open("image", O_RDONLY), to = open("great", O_RDWR | O_CREAT, 0666);
    is("3 GB", ftruncate(to, (off_t)3 << 30) == 0, 1);
    forget();
    is("no journal", etcs_file_open(&file, "great", &unit, 0), ETCS_FILE_UNIT);
    is("its status", file.status, ETCS_UNIT_OPEN_NOT_FORMATTED);
    is("no more is read than its first sector", bytes_read <= sizeof first, 1);
    is("the first sector of another one", read(from, first, sizeof first) == (ssize_t)sizeof first && write(to, first, sizeof first) == (ssize_t)sizeof first, 1);
    forget();
    is("a journal of another size", etcs_file_open(&file, "great", &unit, 0), ETCS_FILE_UNIT);
    is("its status", file.status, ETCS_UNIT_OPEN_DAMAGED);
    is("no more is read than its first sector", bytes_read <= sizeof first, 1);
    is("cold 3 comes first", etcs_file_open(&file, "great", &unit, 3), ETCS_FILE_UNIT);
    is("its status", file.status, ETCS_UNIT_OUT_OF_RANGE);
    is("511 bytes", ftruncate(to, 511) == 0 && etcs_file_open(&file, "great", &unit, 0) == ETCS_FILE_UNIT, 1);
    is("its status", file.status, ETCS_UNIT_OPEN_NOT_FORMATTED);
    close(from);
    close(to);
    unlink("great");
}

static void opens(void) {
    etcs_file file = {0}, other = {0};
    etcs_unit unit = {0}, second = {0};
    is("no file", etcs_file_open(&file, "none", &unit, 0), ETCS_FILE_CANT_OPEN);
    is("its number", (uint64_t)file.error, ENOENT);
    is("a folder", etcs_file_open(&file, ".", &unit, 0), ETCS_FILE_CANT_OPEN);
    is("a device that is empty", etcs_file_open(&file, "/dev/null", &unit, 0), ETCS_FILE_UNIT);
    is("its status", file.status, ETCS_UNIT_OPEN_NOT_FORMATTED);
    is("cold 3", etcs_file_open(&file, "image", &unit, 3), ETCS_FILE_UNIT);
    is("its status", file.status, ETCS_UNIT_OUT_OF_RANGE);
    is("the lock is given back", etcs_file_open(&file, "image", &unit, 0), ETCS_FILE_OK);
    is("a second unit on it", etcs_file_open(&other, "image", &second, 0), ETCS_FILE_LOCKED);
    is("it isn't open", second.is_open, 0);
    is("a format of it", etcs_file_format(&other, "image", 8), ETCS_FILE_LOCKED);
    is("a wipe of it", etcs_file_wipe(&other, "image", 8), ETCS_FILE_LOCKED);
    is("it is as it was", (uint64_t)size_of("image"), 12800);
    is("close what isn't open", etcs_file_close(&other, &second), ETCS_FILE_UNIT);
    is("power-up", etcs_file_flush(&file, &unit, outputs, &count), ETCS_FILE_OK);
    is("it releases nothing", count, 0);
    is("close", etcs_file_close(&file, &unit), ETCS_FILE_OK);
    is("close again", etcs_file_close(&file, &unit), ETCS_FILE_UNIT);
    is("its status", file.status, ETCS_UNIT_NOT_OPEN);
    is("flush what is closed", etcs_file_flush(&file, &unit, outputs, &count), ETCS_FILE_UNIT);
    is("carry out what is closed", etcs_file_carry_out(&file, &unit), ETCS_FILE_UNIT);
}

/* A life in which every call of the system does a part or is interrupted. */
static void lives(void) {
    etcs_file file = {0};
    etcs_unit unit = {0};
    does_parts = 1;
    is("open", etcs_file_open(&file, "image", &unit, ETCS_COLD_NOT_MOVED), ETCS_FILE_OK);
    is("an input before the power-up is done", etcs_unit_clock(&unit, 1), ETCS_UNIT_OK);
    is("flush", etcs_file_flush(&file, &unit, outputs, &count), ETCS_FILE_OK);
    is("the power-up, and the event", count, 1);
    is("an input", etcs_unit_clock(&unit, 2), ETCS_UNIT_OK);
    is("prepare", etcs_unit_prepare(&unit), ETCS_UNIT_OK);
    is("an input meanwhile", etcs_unit_clock(&unit, 3), ETCS_UNIT_OK);
    is("flush of what was prepared", etcs_file_flush(&file, &unit, outputs, &count), ETCS_FILE_OK);
    is("that alone", count, 1);
    const uint64_t event = outputs[0].event;
    is("flush of the other", etcs_file_flush(&file, &unit, outputs, &count), ETCS_FILE_OK);
    is("the other", count, 1);
    is("its event", outputs[0].event, event + 1);
    is("flush of nothing", etcs_file_flush(&file, &unit, outputs, &count), ETCS_FILE_OK);
    is("nothing", count, 0);
    is("close", etcs_file_close(&file, &unit), ETCS_FILE_OK);
    does_parts = 0;
    is("open", etcs_file_open(&file, "image", &unit, 0), ETCS_FILE_OK);
    is("flush", etcs_file_flush(&file, &unit, outputs, &count), ETCS_FILE_OK);
    is("an input", etcs_unit_clock(&unit, 1), ETCS_UNIT_OK);
    is("flush", etcs_file_flush(&file, &unit, outputs, &count), ETCS_FILE_OK);
    is("events are numbered on, after the power-up", outputs[0].event, event + 3);
    is("close", etcs_file_close(&file, &unit), ETCS_FILE_OK);
}

/* Where the file fails nothing is released any more. */
static void fails(int at_sync) {
    etcs_file file = {0};
    etcs_unit unit = {0};
    etcs_unit_state_info state;
    is("open", etcs_file_open(&file, "image", &unit, 0), ETCS_FILE_OK);
    is("flush", etcs_file_flush(&file, &unit, outputs, &count), ETCS_FILE_OK);
    is("an input", etcs_unit_clock(&unit, 1), ETCS_UNIT_OK);
    fails_sync = at_sync ? EIO : 0;
    writes_left = at_sync ? -1 : 0;
    is("flush", etcs_file_flush(&file, &unit, outputs, &count), at_sync ? ETCS_FILE_CANT_SYNC : ETCS_FILE_CANT_WRITE);
    is("nothing is released", count, 0);
    is("the system's number", (uint64_t)file.error, EIO);
    fails_sync = 0;
    writes_left = -1;
    is("state", etcs_unit_state(&unit, &state), ETCS_UNIT_OK);
    is("the unit has failed", state.has_failed, 1);
    is("flush again", etcs_file_flush(&file, &unit, outputs, &count), ETCS_FILE_UNIT);
    is("its status", file.status, ETCS_UNIT_FAILED);
    is("an input", etcs_unit_clock(&unit, 2), ETCS_UNIT_INPUT_FAILED);
    is("close", etcs_file_close(&file, &unit), ETCS_FILE_OK);
}

/* Some flushes of a life; the first and the last event, and the file after it, for the caller to free. */
static uint8_t *flushes(const char *path, uint64_t events[2], size_t *len) {
    etcs_file file = {0};
    etcs_unit unit = {0};
    is("open", etcs_file_open(&file, path, &unit, ETCS_COLD_UNKNOWN), ETCS_FILE_OK);
    for (uint64_t moment = 1; moment <= 12; moment++) {
        is("an input", etcs_unit_clock(&unit, moment), ETCS_UNIT_OK);
        is("flush", etcs_file_flush(&file, &unit, outputs, &count), ETCS_FILE_OK);
        is("its output", count, 1);
        events[moment > 1] = outputs[0].event;
    }
    is("close", etcs_file_close(&file, &unit), ETCS_FILE_OK);
    return bytes_in(path, len);
}

/* Sectors are read as they are wanted, also in parts; a read that fails opens nothing, and releases nothing. */
static void reads(void) {
    etcs_file file = {0};
    etcs_unit unit = {0};
    etcs_unit_state_info state;
    uint64_t at_once[2], in_parts[2];
    size_t size, len;
    is("a file", etcs_file_format(&file, "whole", 64), ETCS_FILE_OK);
    is("the same", etcs_file_format(&file, "parts", 64), ETCS_FILE_OK);
    for (int life = 0; life < 7; life++) {
        uint8_t *const wanted = flushes("whole", at_once, &size);
        does_parts = 1;
        forget();
        uint8_t *const found = flushes("parts", in_parts, &len);
        does_parts = 0;
        is("it is settled before it is read", strncmp(order, "SDR", 3) == 0, 1);
        is("it is read in part", bytes_read < size - 12 * ETCS_UNIT_SECTOR, 1);
        is("the same events", (uint64_t)memcmp(at_once, in_parts, sizeof at_once), 0);
        is("the same file", len == size && memcmp(found, wanted, size) == 0, 1);
        free(wanted);
        free(found);
    }
    for (int read_first = 0; read_first < 66; read_first++) {
        reads_left = read_first;
        is("a read that fails", etcs_file_open(&file, "parts", &unit, 0), ETCS_FILE_CANT_READ);
        is("its number", (uint64_t)file.error, EIO);
        is("no unit is open", unit.is_open, 0);
    }
    reads_left = -1;
    is("the lock is given back", etcs_file_open(&file, "parts", &unit, 0), ETCS_FILE_OK);
    is("flush", etcs_file_flush(&file, &unit, outputs, &count), ETCS_FILE_OK);
    reads_left = 0;
    uint32_t answer = ETCS_FILE_OK;
    for (uint64_t moment = 1; answer == ETCS_FILE_OK && moment < 100; moment++) {
        is("an input", etcs_unit_clock(&unit, moment), ETCS_UNIT_OK);
        answer = etcs_file_flush(&file, &unit, outputs, &count);
    }
    is("a gate that can't be read", answer, ETCS_FILE_CANT_READ);
    is("nothing is released", count, 0);
    is("state", etcs_unit_state(&unit, &state), ETCS_UNIT_OK);
    is("the unit has failed", state.has_failed, 1);
    reads_left = -1;
    is("prepare", etcs_file_prepare(&file, &unit), ETCS_FILE_UNIT);
    is("its status", file.status, ETCS_UNIT_FAILED);
    is("close", etcs_file_close(&file, &unit), ETCS_FILE_OK);
}

static void with_units(void) {
    opens();
    settles();
    open_already();
    as_medium();
    great();
    lives();
    fails(0);
    fails(1);
    zeros();
}

int main(int words, char **word) {
    if (words != 2 || chdir(word[1]) != 0)
        return 2;
    formats();
    keeps();
    names();
    with_units();
    reads();
    return report("files", 900);
}
