/**
 * @file
 * A unit's journal in a file, for C and C++ on systems with POSIX and flock (Linux, BSD, macOS): the medium that
 * etcs_unit.h leaves to you. This header is all of it; link only the library of etcs_unit.h.
 *
 * The image is that of the program `etcs`, byte for byte: an image that `etcs format` made opens here, and `etcs
 * journal` lists an image that a unit left. Like the program, these calls hold the exclusive lock of the whole
 * file (flock). It keeps out the programs of this product and all others that request the lock, but no program that
 * doesn't request it.
 *
 *     etcs_unit unit = {0};
 *     etcs_file file = {0};
 *     if (etcs_file_open(&file, "image", &unit, ETCS_COLD_UNKNOWN) != ETCS_FILE_OK)
 *         brake();
 *     ...
 *     etcs_file_close(&file, &unit);
 *
 * A sector is read when the unit requests it, at the power-up and in each flush: nothing keeps a copy of the file, and the unit
 * needs the same memory for every size of file.
 *
 * Each call returns what failed (enum etcs_file_answer). If the system failed, `error` of the file has its errno;
 * if the unit returned a status other than OK, `status` has it (enum etcs_unit_status). ANY RESULT BUT ETCS_FILE_OK
 * MEANS THE EMERGENCY BRAKE.
 *
 * Ensure what etcs_unit.h requires. A path ends in a zero byte. An etcs_file is all zeros before its
 * first call, and only these calls write to it. No pointer may be null. A child of a fork shares the lock, so if a
 * process forks, the child must close the descriptor or run another program (which closes it).
 *
 * A file is settled before it is read: it is synced, and then the system's copies of its pages are dropped. After a
 * failed sync, in any process, Linux keeps reading such copies, and no later sync writes them. You have to prevent
 * pages that the system can't drop, such as pages that another program has mapped or locked (docs/explain/safety.md,
 * 20). If a system has no posix_fadvise (macOS), nothing is dropped: after a failed sync restart the machine
 * before you open the file.
 *
 * Whether a file keeps what was synced depends on the file system and the drive.
 */
#ifndef ETCS_FILE_H
#define ETCS_FILE_H

/* In ISO C mode a compiler hides the calls of POSIX, unless these macros are defined before the first header. */
#if defined(__STRICT_ANSI__) && !defined(_POSIX_C_SOURCE) && !defined(_XOPEN_SOURCE) && !defined(_GNU_SOURCE)
#define _POSIX_C_SOURCE 200809L
#endif

#include <errno.h>
#include <fcntl.h>
#include <string.h>
#include <sys/file.h>
#include <sys/stat.h>
#include <sys/types.h>
#include <unistd.h>

#include "etcs_image.h"

#ifndef O_CLOEXEC
#error "include etcs_file.h before all other headers, or define _POSIX_C_SOURCE as 200809L before them"
#endif

#ifdef __cplusplus
extern "C" {
#endif

/** The results of the calls below. */
enum etcs_file_answer {
    ETCS_FILE_OK = 0,         /**< the call did what it was asked */
    ETCS_FILE_CANT_OPEN = 1,  /**< the file can't be opened for reading and writing, or can't be created; `error` says why */
    ETCS_FILE_LOCKED = 2,     /**< another program, or another handle of this one, holds a lock on it */
    ETCS_FILE_CANT_LOCK = 3,  /**< locking failed for another reason, for example since the file system has no locks */
    ETCS_FILE_CANT_READ = 4,  /**< the size or the bytes can't be read */
    ETCS_FILE_CANT_WRITE = 5, /**< a write, or setting the length, failed; in a format also if the disk is full */
    ETCS_FILE_CANT_SYNC = 6,  /**< a sync of the file or its folder failed, or the system didn't drop its copies of pages */
    ETCS_FILE_NOT_EMPTY = 7,  /**< formatting: the first sector has bytes other than zeros, as a journal has; nothing was changed */
    ETCS_FILE_WRONG_SIZE = 8, /**< formatting: a device whose size isn't 1 + 6 * slots sectors */
    ETCS_FILE_UNIT = 9        /**< the unit refused; `status` says why */
};

/** The greatest stack of each call below, in bytes, with that of the unit's calls; the stack of the system's calls comes on top. */
#define ETCS_STACK_BYTES_FILE 26624

/** A file; all zeros before its first call. */
typedef struct {
    int descriptor;  /**< the descriptor, if the file is open */
    int error;       /**< errno of what failed, or 0 */
    uint32_t status; /**< the last status of the unit (enum etcs_unit_status) */
    uint32_t held;   /**< ETCS_FILE_HELD if the file is open */
} etcs_file;

/** The value of `held` of an open file. */
#define ETCS_FILE_HELD 0x68656c64u

/** Returns the name of a number of enum etcs_file_answer, without ETCS_FILE_; "unknown" for other numbers. */
static inline const char *etcs_file_answer_name(uint32_t number) {
    static const char *const names[] = {
        "OK", "CANT_OPEN", "LOCKED", "CANT_LOCK", "CANT_READ", "CANT_WRITE", "CANT_SYNC", "NOT_EMPTY", "WRONG_SIZE",
        "UNIT"
    };
    return etcs_name_(names, (uint32_t)(sizeof names / sizeof names[0]), number);
}

/* ---- parts of the calls below: don't call them */

static inline uint32_t etcs_file_failed_(etcs_file *file, uint32_t answer) {
    file->error = errno;
    return answer;
}

static inline uint32_t etcs_file_status_(etcs_file *file, uint32_t status) {
    file->status = status;
    return status == ETCS_UNIT_OK ? (uint32_t)ETCS_FILE_OK : (uint32_t)ETCS_FILE_UNIT;
}

/* Its descriptor, or -1 if no file is open. */
static inline int etcs_file_at_(const etcs_file *file) {
    return file->held == ETCS_FILE_HELD ? file->descriptor : -1;
}

static inline void etcs_file_shut_(etcs_file *file) {
    if (etcs_file_at_(file) >= 0)
        close(file->descriptor);
    file->descriptor = -1;
    file->held = 0;
}

/* Opens and locks. The close-on-exec flag prevents that another program keeps the lock. */
static inline uint32_t etcs_file_lock_(etcs_file *file, const char *path, int flags) {
    file->error = 0;
    file->status = ETCS_UNIT_OK;
    file->descriptor = open(path, flags | O_RDWR | O_CLOEXEC, 0666);
    if (file->descriptor < 0)
        return etcs_file_failed_(file, ETCS_FILE_CANT_OPEN);
    file->held = ETCS_FILE_HELD;
    if (flock(file->descriptor, LOCK_EX | LOCK_NB) == 0)
        return ETCS_FILE_OK;
    return etcs_file_failed_(file, errno == EWOULDBLOCK ? ETCS_FILE_LOCKED : ETCS_FILE_CANT_LOCK);
}

static inline uint32_t etcs_file_read_(etcs_file *file, uint8_t *bytes, size_t len, uint64_t from) {
    for (size_t at = 0; at < len;) {
        const ssize_t got = pread(etcs_file_at_(file), bytes + at, len - at, (off_t)(from + at));
        if (got < 0 && errno == EINTR)
            continue;
        if (got == 0)
            errno = EIO;
        if (got <= 0)
            return etcs_file_failed_(file, ETCS_FILE_CANT_READ);
        at += (size_t)got;
    }
    return ETCS_FILE_OK;
}

static inline uint32_t etcs_file_write_(etcs_file *file, const uint8_t *bytes, size_t len, uint64_t from) {
    for (size_t at = 0; at < len;) {
        const ssize_t put = pwrite(etcs_file_at_(file), bytes + at, len - at, (off_t)(from + at));
        if (put < 0 && errno == EINTR)
            continue;
        if (put == 0)
            errno = EIO;
        if (put <= 0)
            return etcs_file_failed_(file, ETCS_FILE_CANT_WRITE);
        at += (size_t)put;
    }
    return ETCS_FILE_OK;
}

static inline uint32_t etcs_file_sync_(etcs_file *file, int descriptor) {
    for (;;) {
        if (fsync(descriptor) == 0)
            return ETCS_FILE_OK;
        if (errno != EINTR)
            return etcs_file_failed_(file, ETCS_FILE_CANT_SYNC);
    }
}

/* The same, but a file system without such a call, for example a read-only one, has nothing to sync. */
static inline uint32_t etcs_file_sync_what_waits_(etcs_file *file, int descriptor) {
    const uint32_t answer = etcs_file_sync_(file, descriptor);
    if (answer == ETCS_FILE_OK || (file->error != EINVAL && file->error != EROFS))
        return answer;
    file->error = 0;
    return ETCS_FILE_OK;
}

/* Syncs, and drops the system's copies of the file's pages: later reads are of the medium. */
static inline uint32_t etcs_file_settle_(etcs_file *file) {
    const uint32_t answer = etcs_file_sync_what_waits_(file, file->descriptor);
    if (answer != ETCS_FILE_OK)
        return answer;
#ifdef POSIX_FADV_DONTNEED
    file->error = posix_fadvise(file->descriptor, 0, 0, POSIX_FADV_DONTNEED);
#endif
    return file->error == 0 ? ETCS_FILE_OK : ETCS_FILE_CANT_SYNC;
}

/* Opens the folder of the file at this path, following links; -1 if that fails. */
static inline int etcs_file_folder_(const char *path) {
    char text[4096], target[sizeof text];
    int from = AT_FDCWD;
    strncpy(text, path, sizeof text - 1);
    text[sizeof text - 1] = 0; /* (no path of the system is longer) */
    for (int links = 0; links <= 40; links++) {
        char *const slash = strrchr(text, '/');
        if (slash)
            *slash = 0;
        const int folder = openat(from, slash == NULL ? "." : slash == text ? "/" : text, O_RDONLY | O_CLOEXEC);
        if (from != AT_FDCWD)
            close(from);
        const ssize_t len = folder < 0 ? -1 : readlinkat(folder, slash ? slash + 1 : text, target, sizeof target - 1);
        if (folder < 0 || (len < 0 && errno == EINVAL))
            return folder; /* (EINVAL: the name isn't a link) */
        from = folder;
        if (len < 0)
            break;
        target[len] = 0;
        strcpy(text, target);
    }
    close(from);
    return -1;
}

/* Syncs the folder that holds the file, so that the name of a new file survives a loss of power. */
static inline uint32_t etcs_file_sync_folder_(etcs_file *file, const char *path) {
    const int folder = etcs_file_folder_(path);
    if (folder < 0)
        return etcs_file_failed_(file, ETCS_FILE_CANT_SYNC);
    const uint32_t answer = etcs_file_sync_what_waits_(file, folder);
    close(folder);
    return answer;
}

/* Carries out one request. */
static inline uint32_t etcs_file_do_(etcs_file *file, const etcs_unit_request_info *request, const uint8_t *bytes) {
    if (request->kind == ETCS_REQUEST_WRITE)
        return etcs_file_write_(file, bytes, (size_t)request->sectors * ETCS_UNIT_SECTOR,
                                request->sector * ETCS_UNIT_SECTOR);
    return etcs_file_sync_(file, etcs_file_at_(file));
}

/* Carries out one request of the unit. If the file fails it reports that to the unit. */
static inline uint32_t etcs_file_serve_(etcs_file *file, etcs_unit *unit, const etcs_unit_request_info *request, uint8_t *bytes) {
    const int is_read = request->kind == ETCS_REQUEST_READ;
    const uint32_t answer = is_read ? etcs_file_read_(file, bytes, ETCS_UNIT_SECTOR, request->sector * ETCS_UNIT_SECTOR)
                                    : etcs_file_do_(file, request, bytes);
    if (answer != ETCS_FILE_OK) {
        etcs_unit_fail(unit);
        return answer;
    }
    return etcs_file_status_(file, is_read ? etcs_unit_provide(unit, request->sector, bytes, ETCS_UNIT_SECTOR) : etcs_unit_done(unit));
}

/* Powers up, and reads each sector that it needs. */
static inline uint32_t etcs_file_power_up_(etcs_file *file, etcs_unit *unit, uint32_t cold) {
    uint8_t bytes[ETCS_UNIT_REQUEST_BYTES];
    etcs_unit_request_info request;
    const off_t end = lseek(file->descriptor, 0, SEEK_END);
    if (end < 0)
        return etcs_file_failed_(file, ETCS_FILE_CANT_READ);
    uint32_t answer = etcs_file_status_(file, etcs_unit_begin(unit, (uint64_t)end / ETCS_UNIT_SECTOR, cold));
    while (answer == ETCS_FILE_OK) {
        answer = etcs_file_status_(file, etcs_unit_request(unit, &request, bytes, sizeof bytes));
        if (answer != ETCS_FILE_OK || request.kind != ETCS_REQUEST_READ)
            break;
        answer = etcs_file_serve_(file, unit, &request, bytes);
    }
    return answer;
}

static inline uint32_t etcs_file_open_(etcs_file *file, const char *path, etcs_unit *unit, uint32_t cold) {
    uint32_t answer = etcs_file_lock_(file, path, 0);
    if (answer == ETCS_FILE_OK)
        answer = etcs_file_settle_(file);
    return answer == ETCS_FILE_OK ? etcs_file_power_up_(file, unit, cold) : answer;
}

/* Returns NOT_EMPTY if the first sector has bytes other than zeros: a journal, or other data that nobody may lose. */
static inline uint32_t etcs_file_is_empty_(etcs_file *file) {
    uint8_t first[ETCS_UNIT_SECTOR];
    const off_t end = lseek(file->descriptor, 0, SEEK_END);
    if (end < 0)
        return etcs_file_failed_(file, ETCS_FILE_CANT_READ);
    const size_t len = (uint64_t)end < sizeof first ? (size_t)end : sizeof first;
    const uint32_t answer = etcs_file_read_(file, first, len, 0);
    size_t at = 0;
    while (answer == ETCS_FILE_OK && at < len && first[at] == 0)
        at++;
    return answer == ETCS_FILE_OK && at < len ? (uint32_t)ETCS_FILE_NOT_EMPTY : answer;
}

/* Empties a file, and writes `len` bytes of zeros to it. Setting only the length would leave holes, and a flush
 * would fail on a disk that has become full. If the disk has no space for the zeros, the file stays empty. */
static inline uint32_t etcs_file_fill_(etcs_file *file, uint64_t len) {
    static const uint8_t zeros[8 * ETCS_UNIT_SECTOR] = {0};
    uint32_t answer = ETCS_FILE_OK;
    if (ftruncate(file->descriptor, 0) != 0)
        return etcs_file_failed_(file, ETCS_FILE_CANT_WRITE);
    for (uint64_t at = 0; answer == ETCS_FILE_OK && at < len; at += sizeof zeros)
        answer = etcs_file_write_(file, zeros, len - at < sizeof zeros ? (size_t)(len - at) : sizeof zeros, at);
    if (answer != ETCS_FILE_OK)
        (void)!ftruncate(file->descriptor, 0); /* (if that fails, the zeros stay) */
    return answer;
}

/* Fills a file with `len` bytes of zeros, and syncs its folder; a device must have exactly this size. */
static inline uint32_t etcs_file_empty_(etcs_file *file, const char *path, off_t len) {
    struct stat info;
    if (fstat(file->descriptor, &info) != 0)
        return etcs_file_failed_(file, ETCS_FILE_CANT_READ);
    if (S_ISREG(info.st_mode)) {
        const uint32_t answer = etcs_file_fill_(file, (uint64_t)len);
        return answer == ETCS_FILE_OK ? etcs_file_sync_folder_(file, path) : answer;
    }
    return lseek(file->descriptor, 0, SEEK_END) == len ? ETCS_FILE_OK : ETCS_FILE_WRONG_SIZE;
}

static inline uint32_t etcs_file_format_(etcs_file *file, const char *path, uint32_t slots, int wipes) {
    uint8_t bytes[ETCS_UNIT_SECTOR];
    etcs_unit_request_info request;
    /* The number of slots is checked before the file is touched. */
    uint32_t status = etcs_unit_format_request(slots, 0, &request, bytes, sizeof bytes);
    if (status != ETCS_UNIT_OK)
        return etcs_file_status_(file, status);
    uint32_t answer = etcs_file_lock_(file, path, O_CREAT);
    if (answer == ETCS_FILE_OK && !wipes)
        answer = etcs_file_is_empty_(file);
    if (answer == ETCS_FILE_OK)
        answer = etcs_file_empty_(file, path, (off_t)(1 + 6 * (uint64_t)slots) * ETCS_UNIT_SECTOR);
    for (uint32_t index = 0; answer == ETCS_FILE_OK; index++) {
        status = etcs_unit_format_request(slots, index, &request, bytes, sizeof bytes);
        if (status == ETCS_UNIT_NO_SUCH_REQUEST)
            break;
        answer = etcs_file_status_(file, status);
        if (answer == ETCS_FILE_OK)
            answer = etcs_file_do_(file, &request, bytes);
    }
    return answer;
}

/* The result for opening or formatting an open file: it stays open, and everything is as it was. */
static inline uint32_t etcs_file_is_open_(etcs_file *file) {
    file->error = 0;
    return etcs_file_status_(file, ETCS_UNIT_IS_OPEN);
}

/* ---- the calls */

/** Opens and locks the file, settles it, and powers the unit up on the sectors that the unit requests. Call it after each
 * power-up; then etcs_file_flush carries out the requests of the power-up. If the file or the unit is already open, it
 * returns UNIT (IS_OPEN), and both stay open. After any other result than OK the file isn't open and is as it was, and the unit
 * is as before. */
ETCS_MUST_USE
static inline uint32_t etcs_file_open(etcs_file *file, const char *path, etcs_unit *unit, uint32_t cold) {
    etcs_unit_state_info state;
    if (etcs_file_at_(file) >= 0 || etcs_unit_state(unit, &state) == ETCS_UNIT_OK)
        return etcs_file_is_open_(file);
    const uint32_t answer = etcs_file_open_(file, path, unit, cold);
    if (answer != ETCS_FILE_OK)
        etcs_file_shut_(file);
    return answer;
}

/** Turns the accepted inputs into requests. etcs_file_flush calls it. */
ETCS_MUST_USE
static inline uint32_t etcs_file_prepare(etcs_file *file, etcs_unit *unit) {
    return etcs_file_status_(file, etcs_unit_prepare(unit));
}

/** Carries out the unit's requests that aren't done, one after the other, also reads. etcs_file_flush calls it. If
 * the file fails it reports that to the unit (etcs_unit_fail), so that nothing more is released. */
ETCS_MUST_USE
static inline uint32_t etcs_file_carry_out(etcs_file *file, etcs_unit *unit) {
    uint8_t bytes[ETCS_UNIT_REQUEST_BYTES];
    etcs_unit_request_info request;
    uint32_t answer = ETCS_FILE_OK;
    while (answer == ETCS_FILE_OK) {
        const uint32_t status = etcs_unit_request(unit, &request, bytes, sizeof bytes);
        if (status == ETCS_UNIT_NO_SUCH_REQUEST)
            return etcs_file_status_(file, ETCS_UNIT_OK);
        answer = etcs_file_status_(file, status);
        if (answer == ETCS_FILE_OK)
            answer = etcs_file_serve_(file, unit, &request, bytes);
    }
    return answer;
}

static inline uint32_t etcs_file_release_(etcs_file *file, etcs_unit *unit, etcs_unit_output *outputs,
                                          uint32_t *count) {
    const uint32_t answer = etcs_file_carry_out(file, unit);
    if (answer != ETCS_FILE_OK)
        return answer;
    return etcs_file_status_(file, etcs_unit_release(unit, outputs, ETCS_UNIT_OUTPUTS, count));
}

/** Writes the accepted inputs to the file, and releases their outputs: `count` of them, the oldest first, in a buffer for
 * ETCS_UNIT_OUTPUTS. Call it once a cycle, after the inputs, and then etcs_unit_command. After etcs_file_open it also carries
 * out the power-up. If requests of an earlier etcs_unit_prepare still hold outputs back, it releases only
 * those, and pending inputs wait for the next flush. After any other result than OK `count` is 0. */
ETCS_MUST_USE
static inline uint32_t etcs_file_flush(etcs_file *file, etcs_unit *unit, etcs_unit_output *outputs, uint32_t *count) {
    *count = 0;
    uint32_t answer = etcs_file_prepare(file, unit);
    if (file->status == ETCS_UNIT_REQUESTS_OWED) {
        answer = etcs_file_release_(file, unit, outputs, count);
        if (answer != ETCS_FILE_OK || *count > 0)
            return answer;
        answer = etcs_file_prepare(file, unit);
    }
    return answer == ETCS_FILE_OK ? etcs_file_release_(file, unit, outputs, count) : answer;
}

/** Closes the unit and then the file, which releases its lock. Call it at the end, and after a failure before the file is
 * opened again. This life loses inputs that weren't released. You may call it on a file and a unit that aren't open, also on
 * zeros. Returns OK, or UNIT (the unit wasn't open). */
static inline uint32_t etcs_file_close(etcs_file *file, etcs_unit *unit) {
    const uint32_t answer = etcs_file_status_(file, etcs_unit_close(unit));
    etcs_file_shut_(file);
    return answer;
}

/** Opens, locks and settles the file as the medium of an executive (etcs_executive.h), without a unit, and writes its number of
 * sectors to `sectors`. Call it before etcs_executive_begin, and etcs_file_close at the end, with the executive's unit. If the
 * file is already open it returns UNIT (IS_OPEN), and it stays open. After any other result than OK it isn't open. */
ETCS_MUST_USE
static inline uint32_t etcs_file_open_medium(etcs_file *file, const char *path, uint64_t *sectors) {
    if (etcs_file_at_(file) >= 0)
        return etcs_file_is_open_(file);
    uint32_t answer = etcs_file_lock_(file, path, 0);
    if (answer == ETCS_FILE_OK)
        answer = etcs_file_settle_(file);
    const off_t end = answer == ETCS_FILE_OK ? lseek(file->descriptor, 0, SEEK_END) : 0;
    if (end < 0)
        answer = etcs_file_failed_(file, ETCS_FILE_CANT_READ);
    if (answer != ETCS_FILE_OK)
        etcs_file_shut_(file);
    else
        *sectors = (uint64_t)end / ETCS_UNIT_SECTOR;
    return answer;
}

/** Reads a sector of the file, an etcs_file: read_sector of etcs_equipment. Returns 1, or 0 if that failed. */
static inline int etcs_file_read_sector(void *file, uint64_t sector, uint8_t *bytes) {
    return etcs_file_read_((etcs_file *)file, bytes, ETCS_UNIT_SECTOR, sector * ETCS_UNIT_SECTOR) == ETCS_FILE_OK;
}

/** Carries out a request on the file, an etcs_file: carry_out of etcs_equipment. Returns 1, or 0 if that failed. */
static inline int etcs_file_carry_out_request(void *file, const etcs_unit_request_info *request, const uint8_t *bytes) {
    return etcs_file_do_((etcs_file *)file, request, bytes) == ETCS_FILE_OK;
}

static inline uint32_t etcs_file_make_(etcs_file *file, const char *path, uint32_t slots, int wipes) {
    if (etcs_file_at_(file) >= 0)
        return etcs_file_is_open_(file);
    file->error = 0;
    file->status = ETCS_UNIT_OK;
    const uint32_t answer = etcs_file_format_(file, path, slots, wipes);
    etcs_file_shut_(file);
    return answer;
}

/** Makes an empty journal of `slots` slots if there is none: of a file that is new, or empty, or whose first sector has
 * only zeros, as after a loss of power in a format. Each byte of the file is written, so that no flush needs more disk space,
 * if the file system writes in place. If the first sector has anything else it returns NOT_EMPTY, and
 * nothing was changed: so call it before the first power-up, or before each one, and continue with etcs_file_open if it
 * returns OK or NOT_EMPTY. An existing file is locked before it is read. The folder is synced, so that the name of a new
 * file survives a loss of power. Afterwards the file isn't open. An open file stays open: UNIT (IS_OPEN). */
ETCS_MUST_USE
static inline uint32_t etcs_file_format(etcs_file *file, const char *path, uint32_t slots) {
    return etcs_file_make_(file, path, slots, 0);
}

/** Makes the file an empty journal of `slots` slots, whatever it holds: ALL EVENTS IN IT ARE LOST. Never call it at a
 * power-up. Otherwise it is like etcs_file_format. */
ETCS_MUST_USE
static inline uint32_t etcs_file_wipe(etcs_file *file, const char *path, uint32_t slots) {
    return etcs_file_make_(file, path, slots, 1);
}

#ifdef __cplusplus
}
#endif

#endif
