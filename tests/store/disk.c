/* A disk that fails as tests/store asks. It is loaded before the C library (LD_PRELOAD), and looks at the calls on one store alone: the
 * file that DISK_FILE names, and the log beside it.
 *
 *   DISK_FAILS     which calls count: write, half, sync, truncate or open. `half` is a write of which half the bytes are written. A sync
 *                  that fails loses what was written since the last one that didn't
 *   DISK_AT        which of these calls fails, counted from 1; 0 for none
 *   DISK_ON        where this is set, those after it fail too
 *   DISK_ERROR     the error's number
 *   DISK_TOLD      a file descriptor that a byte is written to for each call that counts, `f` for one that fails
 *   DISK_JOURNAL   a file descriptor that all calls are written to, in their order, with what is sent to sockets */
#define _GNU_SOURCE
#include <dlfcn.h>
#include <errno.h>
#include <fcntl.h>
#include <pthread.h>
#include <stdarg.h>
#include <stdint.h>
#include <stdio.h>
#include <stdlib.h>
#include <string.h>
#include <sys/socket.h>
#include <sys/stat.h>
#include <sys/syscall.h>
#include <sys/uio.h>
#include <unistd.h>

/* Which file a descriptor is of. */
enum file { NONE, DATABASE, LOG };

/* What a write took the place of, so that it can be undone. */
struct piece {
    struct piece *before;
    off_t place, size;
    size_t length;
    char bytes[];
};

/* The head of a call in the journal; a write's bytes follow it. */
struct entry {
    uint64_t kind, file, place, length;
};

static const char *path, *fails;
static long at, count;
static int goes_on, told = -1, journal = -1, error = EIO;
static struct piece *unsynced[3];
static pthread_mutex_t lock = PTHREAD_MUTEX_INITIALIZER;

static long number(const char *name, long otherwise) {
    const char *text = getenv(name);
    return text ? atol(text) : otherwise;
}

__attribute__((constructor)) static void begin(void) {
    path = getenv("DISK_FILE");
    fails = getenv("DISK_FAILS");
    at = number("DISK_AT", 0);
    goes_on = getenv("DISK_ON") != NULL;
    error = (int)number("DISK_ERROR", EIO);
    told = (int)number("DISK_TOLD", -1);
    journal = (int)number("DISK_JOURNAL", -1);
}

static enum file named(const char *name) {
    if (path == NULL || strncmp(name, path, strlen(path)) != 0) {
        return NONE;
    }
    const char *rest = name + strlen(path);
    return *rest == '\0' ? DATABASE : strcmp(rest, "-wal") == 0 ? LOG : NONE;
}

static enum file file_of(int descriptor) {
    char link[64], name[4096];
    snprintf(link, sizeof link, "/proc/self/fd/%d", descriptor);
    ssize_t length = readlink(link, name, sizeof name - 1);
    if (length < 0) {
        return NONE;
    }
    name[length] = '\0';
    return named(name);
}

static void note(char kind, enum file file, off_t place, size_t length, const void *bytes) {
    if (journal < 0) {
        return;
    }
    struct entry entry = {(uint64_t)kind, file, (uint64_t)place, length};
    struct iovec parts[2] = {{&entry, sizeof entry}, {(void *)bytes, bytes ? length : 0}};
    if (syscall(SYS_writev, journal, parts, 2) < 0) {
        _exit(99);
    }
}

/* Whether the next call of a kind fails. */
static int is_failing(const char *kind) {
    if (fails == NULL || strcmp(kind, fails) != 0) {
        return 0;
    }
    count++;
    int is_it = at > 0 && (count == at || (count > at && goes_on));
    if (told >= 0) {
        syscall(SYS_write, told, is_it ? "f" : "c", 1);
    }
    return is_it;
}

static off_t size_of(int descriptor) {
    struct stat found;
    return syscall(SYS_fstat, descriptor, &found) == 0 ? found.st_size : 0;
}

/* Keeps what stands at a place, before it is written over or cut. */
static void keep(int descriptor, enum file file, off_t place, size_t length) {
    if (fails == NULL || strcmp(fails, "sync") != 0) {
        return;
    }
    struct piece *piece = malloc(sizeof *piece + length);
    ssize_t got = syscall(SYS_pread64, descriptor, piece->bytes, length, place);
    *piece = (struct piece){unsynced[file], place, size_of(descriptor), got > 0 ? (size_t)got : 0};
    unsynced[file] = piece;
}

static void forget(enum file file) {
    while (unsynced[file]) {
        struct piece *piece = unsynced[file];
        unsynced[file] = piece->before;
        free(piece);
    }
}

static void lose(int descriptor, enum file file) {
    for (struct piece *piece = unsynced[file]; piece; piece = piece->before) {
        if (syscall(SYS_pwrite64, descriptor, piece->bytes, piece->length, piece->place) < 0 ||
            syscall(SYS_ftruncate, descriptor, piece->size) < 0) {
            _exit(99);
        }
    }
    forget(file);
}

static int failed(void) {
    errno = error;
    return -1;
}

static ssize_t put(int descriptor, enum file file, const void *bytes, size_t length, off_t place) {
    keep(descriptor, file, place, length);
    ssize_t done = syscall(SYS_pwrite64, descriptor, bytes, length, place);
    if (done > 0) {
        note('w', file, place, (size_t)done, bytes);
    }
    return done;
}

ssize_t pwrite(int descriptor, const void *bytes, size_t length, off_t place) {
    enum file file = file_of(descriptor);
    if (file == NONE) {
        return syscall(SYS_pwrite64, descriptor, bytes, length, place);
    }
    pthread_mutex_lock(&lock);
    ssize_t done;
    if (is_failing("write")) {
        done = failed();
    } else if (is_failing("half")) {
        put(descriptor, file, bytes, length / 2, place);
        done = failed();
    } else {
        done = put(descriptor, file, bytes, length, place);
    }
    pthread_mutex_unlock(&lock);
    return done;
}

ssize_t pwrite64(int descriptor, const void *bytes, size_t length, off_t place) {
    return pwrite(descriptor, bytes, length, place);
}

static int synced(long call, int descriptor) {
    enum file file = file_of(descriptor);
    if (file == NONE) {
        return (int)syscall(call, descriptor);
    }
    pthread_mutex_lock(&lock);
    int done;
    if (is_failing("sync")) {
        lose(descriptor, file);
        done = failed();
    } else {
        done = (int)syscall(call, descriptor);
        if (done == 0) {
            forget(file);
            note('s', file, 0, 0, NULL);
        }
    }
    pthread_mutex_unlock(&lock);
    return done;
}

int fsync(int descriptor) {
    return synced(SYS_fsync, descriptor);
}

int fdatasync(int descriptor) {
    return synced(SYS_fdatasync, descriptor);
}

int ftruncate(int descriptor, off_t length) {
    enum file file = file_of(descriptor);
    if (file == NONE) {
        return (int)syscall(SYS_ftruncate, descriptor, length);
    }
    pthread_mutex_lock(&lock);
    int done;
    if (is_failing("truncate")) {
        done = failed();
    } else {
        off_t size = size_of(descriptor);
        keep(descriptor, file, length, size > length ? (size_t)(size - length) : 0);
        done = (int)syscall(SYS_ftruncate, descriptor, length);
        if (done == 0) {
            note('t', file, length, 0, NULL);
        }
    }
    pthread_mutex_unlock(&lock);
    return done;
}

int ftruncate64(int descriptor, off_t length) {
    return ftruncate(descriptor, length);
}

static int opened(int folder, const char *name, int flags, mode_t mode) {
    if (named(name) != NONE) {
        pthread_mutex_lock(&lock);
        int fails_now = is_failing("open");
        pthread_mutex_unlock(&lock);
        if (fails_now) {
            return failed();
        }
    }
    return (int)syscall(SYS_openat, folder, name, flags, mode);
}

static mode_t mode_of(int flags, va_list rest) {
    return flags & (O_CREAT | O_TMPFILE) ? va_arg(rest, mode_t) : 0;
}

int open(const char *name, int flags, ...) {
    va_list rest;
    va_start(rest, flags);
    mode_t mode = mode_of(flags, rest);
    va_end(rest);
    return opened(AT_FDCWD, name, flags, mode);
}

int openat(int folder, const char *name, int flags, ...) {
    va_list rest;
    va_start(rest, flags);
    mode_t mode = mode_of(flags, rest);
    va_end(rest);
    return opened(folder, name, flags, mode);
}

/* What is sent is noted before it is sent, and a sync once it is done: what was synced before a reply stands before it. */
static void note_sent(int descriptor, const void *bytes, size_t length) {
    struct stat found;
    if (journal >= 0 && syscall(SYS_fstat, descriptor, &found) == 0 && S_ISSOCK(found.st_mode)) {
        pthread_mutex_lock(&lock);
        note('r', NONE, 0, length, bytes);
        pthread_mutex_unlock(&lock);
    }
}

ssize_t write(int descriptor, const void *bytes, size_t length) {
    note_sent(descriptor, bytes, length);
    return syscall(SYS_write, descriptor, bytes, length);
}

ssize_t send(int descriptor, const void *bytes, size_t length, int flags) {
    note_sent(descriptor, bytes, length);
    return syscall(SYS_sendto, descriptor, bytes, length, flags, NULL, 0);
}

ssize_t sendmsg(int descriptor, const struct msghdr *message, int flags) {
    for (size_t part = 0; part < message->msg_iovlen; part++) {
        note_sent(descriptor, message->msg_iov[part].iov_base, message->msg_iov[part].iov_len);
    }
    return syscall(SYS_sendmsg, descriptor, message, flags);
}
