// Reading and writing on a bad day, to be preloaded: each call is first interrupted, then not ready,
// then moves seven bytes at most. The FAILED_READ-th or FAILED_WRITE-th call that would move bytes
// fails instead; on standard error none does.

#define _GNU_SOURCE

#include <errno.h>
#include <stdbool.h>
#include <stdlib.h>
#include <sys/stat.h>
#include <sys/syscall.h>
#include <unistd.h>

static bool is_standard_error(int descriptor) {
    struct stat one, other;
    return fstat(descriptor, &one) == 0 && fstat(STDERR_FILENO, &other) == 0 &&
           one.st_dev == other.st_dev && one.st_ino == other.st_ino;
}

static bool is_chosen(const char *variable, unsigned long number) {
    const char *chosen = getenv(variable);
    return chosen != NULL && strtoul(chosen, NULL, 10) == number;
}

// Whether this call moves bytes; else errno says why not. Every third one does.
static bool moves(unsigned long *calls) {
    *calls += 1;
    errno = *calls % 3 == 1 ? EINTR : EAGAIN;
    return *calls % 3 == 0;
}

static size_t some(size_t length) {
    return length < 7 ? length : 7;
}

ssize_t read(int descriptor, void *bytes, size_t length) {
    static unsigned long calls;
    if (!moves(&calls)) {
        return -1;
    }
    if (is_chosen("FAILED_READ", calls / 3)) {
        errno = EIO;
        return -1;
    }
    return syscall(SYS_read, descriptor, bytes, some(length));
}

ssize_t write(int descriptor, const void *bytes, size_t length) {
    static unsigned long calls, told;
    bool tells = is_standard_error(descriptor);
    if (!moves(tells ? &told : &calls)) {
        return -1;
    }
    if (!tells && is_chosen("FAILED_WRITE", calls / 3)) {
        errno = ENOSPC;
        return -1;
    }
    return syscall(SYS_write, descriptor, bytes, some(length));
}
