/* Preloaded into the program by tests/faults, to make calls of the system fail. It reads these variables:
 *
 * FAULT_PROGRAM   the name of the program's file; a script that starts it has another name, and no call of it is watched
 * FAULT_CALL      the calls that it watches: open, read, write (to standard output), error (a write to standard
 *                 error), thread or allocate
 * FAULT_NUMBER    which of them fails, from 1; where it is 0 none does
 * FAULT_LASTING   1 where all later ones fail too
 * FAULT_ERROR     the error of an open, read or write; where it is 0 a read or write moves nothing in place of failing,
 *                 where it is -1 one byte
 * FAULT_ONE_BYTE  1 where each read and write moves one byte
 * FAULT_THREAD    where it is given, calls of other threads aren't watched: 0 is the first thread, and others count as
 *                 they are started
 * FAULT_LOG       a file, to which it appends a line for each name that is opened, for each call that failed, and
 *                 where none is to fail for each call that it watches
 */

#define _GNU_SOURCE
#include <dlfcn.h>
#include <errno.h>
#include <fcntl.h>
#include <pthread.h>
#include <stdarg.h>
#include <stdlib.h>
#include <string.h>
#include <sys/syscall.h>
#include <unistd.h>

extern void *__libc_malloc(size_t);
extern void *__libc_calloc(size_t, size_t);
extern void *__libc_realloc(void *, size_t);
extern void *__libc_memalign(size_t, size_t);
extern void __libc_free(void *);

enum { LOG_FILE = 100 };

static const char *watched = "";
static unsigned long number, calls;
static int lasting, failure, one_byte, is_logged;
static long watched_thread = -1, threads;
static __thread long thread;

static long variable(const char *name) {
    const char *text = getenv(name);
    return text ? strtol(text, NULL, 10) : 0;
}

__attribute__((constructor)) static void begin(void) {
    const char *program = getenv("FAULT_PROGRAM");
    if (!program || strcmp(program_invocation_short_name, program) != 0) return;
    if (getenv("FAULT_CALL")) watched = getenv("FAULT_CALL");
    number = variable("FAULT_NUMBER");
    lasting = variable("FAULT_LASTING");
    failure = (int)variable("FAULT_ERROR");
    one_byte = variable("FAULT_ONE_BYTE");
    if (getenv("FAULT_THREAD")) watched_thread = variable("FAULT_THREAD");
    if (getenv("FAULT_LOG")) {
        int file = syscall(SYS_open, getenv("FAULT_LOG"), O_WRONLY | O_CREAT | O_APPEND, 0600);
        is_logged = syscall(SYS_dup3, file, LOG_FILE, O_CLOEXEC) == LOG_FILE;
        syscall(SYS_close, file);
    }
}

static void tell(const char *line, size_t length) {
    if (is_logged) syscall(SYS_write, LOG_FILE, line, length);
}

static int fails(const char *call) {
    if (strcmp(call, watched) != 0) return 0;
    if (watched_thread >= 0 && thread != watched_thread) return 0;
    if (number == 0) {
        tell("call\n", 5);
        return 0;
    }
    unsigned long count = __atomic_add_fetch(&calls, 1, __ATOMIC_SEQ_CST);
    if (count < number || (count > number && !lasting)) return 0;
    tell("failed\n", 7);
    if (failure > 0) errno = failure;
    return 1;
}

static ssize_t moved(const char *call, long kind, int file, void *buffer, size_t length) {
    int is_failing = fails(call);
    if (is_failing && failure >= 0) return failure ? -1 : 0;
    return syscall(kind, file, buffer, (one_byte || is_failing) && length > 1 ? 1 : length);
}

ssize_t read(int file, void *buffer, size_t length) { return moved("read", SYS_read, file, buffer, length); }

ssize_t write(int file, const void *buffer, size_t length) {
    return moved(file == STDERR_FILENO ? "error" : "write", SYS_write, file, (void *)buffer, length);
}

static int opened(const char *name, int flags, va_list rest) {
    mode_t mode = flags & O_CREAT ? va_arg(rest, mode_t) : 0;
    char line[512] = "open ";
    size_t length = strnlen(name, sizeof line - 6);
    memcpy(line + 5, name, length);
    line[5 + length] = '\n';
    tell(line, 6 + length);
    return fails("open") ? -1 : syscall(SYS_open, name, flags, mode);
}

int open(const char *name, int flags, ...) {
    va_list rest;
    va_start(rest, flags);
    int file = opened(name, flags, rest);
    va_end(rest);
    return file;
}

int open64(const char *name, int flags, ...) {
    va_list rest;
    va_start(rest, flags);
    int file = opened(name, flags, rest);
    va_end(rest);
    return file;
}

struct started {
    void *(*start)(void *);
    void *argument;
    long thread;
};

static void *begin_thread(void *given) {
    struct started started = *(struct started *)given;
    __libc_free(given);
    thread = started.thread;
    return started.start(started.argument);
}

int pthread_create(pthread_t *id, const pthread_attr_t *attributes, void *(*start)(void *), void *argument) {
    int (*create)(pthread_t *, const pthread_attr_t *, void *(*)(void *), void *) = dlsym(RTLD_NEXT, "pthread_create");
    if (fails("thread")) return EAGAIN;
    struct started *given = __libc_malloc(sizeof *given);
    if (!given) return EAGAIN;
    *given = (struct started){start, argument, __atomic_add_fetch(&threads, 1, __ATOMIC_SEQ_CST)};
    int status = create(id, attributes, begin_thread, given);
    if (status != 0) __libc_free(given);
    return status;
}

static int refuses_memory(void) {
    int is_failing = fails("allocate");
    if (is_failing) errno = ENOMEM;
    return is_failing;
}

void *malloc(size_t size) { return refuses_memory() ? NULL : __libc_malloc(size); }

void *calloc(size_t count, size_t size) { return refuses_memory() ? NULL : __libc_calloc(count, size); }

void *realloc(void *block, size_t size) { return refuses_memory() ? NULL : __libc_realloc(block, size); }

void *aligned_alloc(size_t alignment, size_t size) {
    return refuses_memory() ? NULL : __libc_memalign(alignment, size);
}

int posix_memalign(void **block, size_t alignment, size_t size) {
    void *found = refuses_memory() ? NULL : __libc_memalign(alignment, size);
    if (found) *block = found;
    return found ? 0 : ENOMEM;
}
