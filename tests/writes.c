// The C library's write and read, for a program that is run with this library before it (LD_PRELOAD): they fail, or move few
// bytes, as the environment says. tests/writes builds and uses it. Each variable is a number; one that is not set does nothing.
//
//   WRITES_FAIL  this write to standard output, counted from 1, fails with nothing written
//   WRITES_HALF  this one takes half of its bytes (of one byte nothing, it fails), and the next one fails
//   WRITES_MOST  a write to standard output takes at most so many bytes
//   WRITES_READ  a read of standard input gets at most so many bytes
//   WRITES_CUT   so many reads of standard input succeed, and all later ones fail
//   WRITES_LOG   into this open file goes a line for each write to standard output: the bytes asked for, and the answer
#define _GNU_SOURCE
#include <errno.h>
#include <stdio.h>
#include <stdlib.h>
#include <sys/syscall.h>
#include <unistd.h>

// The number that a variable has, else -1.
static long number(const char *name) {
    const char *text = getenv(name);
    return text ? atol(text) : -1;
}

static size_t at_most(size_t count, const char *name) {
    long most = number(name);
    return most >= 0 && (size_t)most < count ? (size_t)most : count;
}

static ssize_t fail(void) {
    errno = EIO;
    return -1;
}

static void note(size_t asked, ssize_t answer) {
    int kept = errno;
    char line[64];
    int size = snprintf(line, sizeof line, "%zu %zd\n", asked, answer);
    if (number("WRITES_LOG") >= 0 && syscall(SYS_write, (int)number("WRITES_LOG"), line, (size_t)size) != size) abort();
    errno = kept;
}

// The answer to the write that has this number, of those to standard output.
static ssize_t answer(long call, const void *bytes, size_t count) {
    static int half_taken;
    int half = call == number("WRITES_HALF");
    if (half_taken || call == number("WRITES_FAIL") || (half && count < 2)) {
        half_taken = 0;
        return fail();
    }
    half_taken = half;
    return syscall(SYS_write, 1, bytes, half ? count / 2 : at_most(count, "WRITES_MOST"));
}

ssize_t write(int fd, const void *bytes, size_t count) {
    static long calls;
    if (fd != 1) return syscall(SYS_write, fd, bytes, count);
    calls++;
    ssize_t got = answer(calls, bytes, count);
    note(count, got);
    return got;
}

ssize_t read(int fd, void *bytes, size_t count) {
    static long calls;
    if (fd != 0) return syscall(SYS_read, fd, bytes, count);
    calls++;
    if (number("WRITES_CUT") >= 0 && calls > number("WRITES_CUT")) return fail();
    return syscall(SYS_read, fd, bytes, at_most(count, "WRITES_READ"));
}
