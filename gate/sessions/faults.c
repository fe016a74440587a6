/* Replaces malloc, realloc, read and write of the C library in a program that is started with this file, compiled as a
   shared library, in LD_PRELOAD. The environment says what fails:

       FAULT_MEMORY=N   the Nth allocation fails
       FAULT_GONE=N     each allocation from the Nth on fails
       FAULT_READ=N     the Nth read of standard input fails
       FAULT_WRITE=N    the Nth write of standard output fails
       FAULT_READS=N    the first N reads of standard input are interrupted
       FAULT_WRITES=N   the first N writes of standard output are interrupted
       FAULT_PIECES=1   a read and a write move at most one byte

   N counts from 1. FAULT_TOLD=N names a descriptor: a `.` is written to it as the program starts, and a `!` at the first call
   that fails. */
#define _GNU_SOURCE
#include <errno.h>
#include <stdlib.h>
#include <sys/syscall.h>
#include <unistd.h>

extern void *__libc_malloc(size_t);
extern void *__libc_realloc(void *, size_t);

struct stream { long calls, failing, interrupted; };

static struct stream input, output;
static long requests, refused, gone, pieces, told;

static long number_of(const char *name) {
    const char *text = getenv(name);
    return text ? atol(text) : 0;
}

static void tell(const char *mark) {
    if (told > 0)
        syscall(SYS_write, told, mark, 1);
}

/* Runs before main. What the C library itself allocates before that succeeds, and isn't counted. */
__attribute__((constructor)) static void read_environment(void) {
    input.failing = number_of("FAULT_READ");
    input.interrupted = number_of("FAULT_READS");
    output.failing = number_of("FAULT_WRITE");
    output.interrupted = number_of("FAULT_WRITES");
    pieces = number_of("FAULT_PIECES");
    refused = number_of("FAULT_MEMORY");
    gone = number_of("FAULT_GONE");
    told = number_of("FAULT_TOLD");
    requests = 0;
    tell(".");
}

/* Sets the error of a call that fails, and reports the first one. */
static int fails(int error) {
    static int is_told;
    if (!is_told)
        tell("!");
    is_told = 1;
    errno = error;
    return 1;
}

static int has_no_memory(void) {
    requests += 1;
    return (requests == refused || (gone && requests >= gone)) && fails(ENOMEM);
}

void *malloc(size_t size) {
    return has_no_memory() ? NULL : __libc_malloc(size);
}

void *realloc(void *old, size_t size) {
    return has_no_memory() ? NULL : __libc_realloc(old, size);
}

/* Returns whether the stream's next call fails. */
static int is_stopped(struct stream *stream) {
    stream->calls += 1;
    if (stream->calls <= stream->interrupted)
        return fails(EINTR);
    return stream->calls == stream->failing && fails(EIO);
}

ssize_t read(int file, void *bytes, size_t count) {
    if (file == STDIN_FILENO && is_stopped(&input))
        return -1;
    return syscall(SYS_read, file, bytes, pieces && count > 1 ? 1 : count);
}

ssize_t write(int file, const void *bytes, size_t count) {
    if (file == STDOUT_FILENO && is_stopped(&output))
        return -1;
    return syscall(SYS_write, file, bytes, pieces && count > 1 ? 1 : count);
}
