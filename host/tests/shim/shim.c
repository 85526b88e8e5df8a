/* Calls of the system that fail as the environment says, for tests: SHIM names one of the calls below. If SHIM_WHEN
   names a file, the call fails once that file is there. It is loaded in front of the system's library by LD_PRELOAD. */
#define _GNU_SOURCE
#include <dlfcn.h>
#include <errno.h>
#include <stdlib.h>
#include <string.h>
#include <sys/stat.h>
#include <sys/types.h>
#include <unistd.h>

static int fails(const char *call) {
    const char *shim = getenv("SHIM"), *when = getenv("SHIM_WHEN");
    return shim && strcmp(shim, call) == 0 && (!when || access(when, F_OK) == 0);
}

/* The disk is broken. */
int fdatasync(int fd) {
    static int (*real)(int);
    if (fails("fdatasync")) {
        errno = EIO;
        return -1;
    }
    if (!real) real = (int (*)(int))dlsym(RTLD_NEXT, "fdatasync");
    return real(fd);
}

/* A file system without locks. */
int flock(int fd, int operation) {
    static int (*real)(int, int);
    if (fails("flock")) {
        errno = ENOLCK;
        return -1;
    }
    if (!real) real = (int (*)(int, int))dlsym(RTLD_NEXT, "flock");
    return real(fd, operation);
}

/* A file system, or a kernel, that can't rename without writing over. */
int renameat2(int from_in, const char *from, int to_in, const char *to, unsigned flags) {
    static int (*real)(int, const char *, int, const char *, unsigned);
    if (fails("renameat2")) {
        errno = EINVAL;
        return -1;
    }
    if (!real) real = (int (*)(int, const char *, int, const char *, unsigned))dlsym(RTLD_NEXT, "renameat2");
    return real(from_in, from, to_in, to, flags);
}

/* A disk that turns a bit: of what is long, one byte is written otherwise. */
ssize_t write(int fd, const void *bytes, size_t count) {
    static ssize_t (*real)(int, const void *, size_t);
    struct stat about;
    if (!real) real = (ssize_t (*)(int, const void *, size_t))dlsym(RTLD_NEXT, "write");
    if (fails("write") && count > 1000 && fstat(fd, &about) == 0 && S_ISREG(about.st_mode)) {
        char *other = malloc(count);
        memcpy(other, bytes, count);
        other[count / 2] ^= 1;
        ssize_t written = real(fd, other, count);
        free(other);
        return written;
    }
    return real(fd, bytes, count);
}
