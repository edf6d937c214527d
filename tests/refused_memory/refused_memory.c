/* Refuses requests for memory as tests/refused_memory asks. It is loaded before the C library (LD_PRELOAD).
 *
 *   REFUSED_AT     which request is refused, counted from 1; 0 for none
 *   REFUSED_ON     where this is set, those after it are refused too
 *   REFUSED_FROM   a line of standard output: only requests between it and the next line that begins with `answer` count.
 *                  Without it all requests count, and what goes on being refused ends with the next write to standard output
 *   REFUSED_TOLD   a file descriptor that a byte is written to for each refusal
 *
 * A thread to be started is a request too, since it needs a stack. */
#define _GNU_SOURCE
#include <dlfcn.h>
#include <errno.h>
#include <pthread.h>
#include <stdatomic.h>
#include <stdlib.h>
#include <string.h>
#include <sys/syscall.h>
#include <unistd.h>

void *__libc_malloc(size_t size);
void *__libc_realloc(void *block, size_t size);

typedef int start_thread(pthread_t *, const pthread_attr_t *, void *(*)(void *), void *);

static start_thread *real_start;
static const char *from;
static long at;
static int goes_on;
static int told;
static atomic_long count;
static atomic_int counts;
static atomic_int has_begun;
static atomic_int is_over;

/* The beginning of the line that is being written. */
static char line[64];
static size_t length;

static long number(const char *name) {
    const char *text = getenv(name);
    return text ? atol(text) : 0;
}

__attribute__((constructor)) static void begin(void) {
    real_start = (start_thread *)dlsym(RTLD_NEXT, "pthread_create");
    from = getenv("REFUSED_FROM");
    at = number("REFUSED_AT");
    goes_on = getenv("REFUSED_ON") != NULL;
    told = (int)number("REFUSED_TOLD");
    counts = from == NULL;
}

static int is_refused(void) {
    if (!counts) {
        return 0;
    }
    long this = atomic_fetch_add(&count, 1) + 1;
    if (at == 0 || is_over || this < at || (this > at && !goes_on)) {
        return 0;
    }
    has_begun = 1;
    syscall(SYS_write, told, "r", 1);
    return 1;
}

void *malloc(size_t size) {
    if (is_refused()) {
        errno = ENOMEM;
        return NULL;
    }
    return __libc_malloc(size);
}

void *realloc(void *block, size_t size) {
    if (size > 0 && is_refused()) {
        errno = ENOMEM;
        return NULL;
    }
    return __libc_realloc(block, size);
}

int pthread_create(pthread_t *thread, const pthread_attr_t *attributes, void *(*run)(void *), void *argument) {
    return is_refused() ? EAGAIN : real_start(thread, attributes, run, argument);
}

static void see(char byte) {
    if (byte != '\n') {
        if (length < sizeof line - 1) {
            line[length++] = byte;
        }
        if (length == strlen("answer") && memcmp(line, "answer", length) == 0) {
            counts = 0;
        }
        return;
    }
    line[length] = '\0';
    length = 0;
    if (strcmp(line, from) == 0) {
        counts = 1;
    }
}

static ssize_t written(int file, const void *bytes, size_t size) {
    if (file == STDOUT_FILENO && from) {
        for (size_t place = 0; place < size; place++) {
            see(((const char *)bytes)[place]);
        }
    } else if (file == STDOUT_FILENO && has_begun) {
        is_over = 1;
    }
    return syscall(SYS_write, file, bytes, size);
}

ssize_t write(int file, const void *bytes, size_t size) {
    return written(file, bytes, size);
}

ssize_t __write(int file, const void *bytes, size_t size) {
    return written(file, bytes, size);
}
