/* A library that is loaded before a program, and fails calls of the C library that it makes.
 *
 * The variables FAULTS_FILES, FAULTS_OUT and FAULTS_ERR are of calls on files, of writes to
 * standard output and of writes to standard error. Each is `FIRST LAST ERROR TAKEN`: the calls from
 * the number FIRST to LAST, counted from 1, fail with the error of this number, or take no byte if
 * it is 0. Any other write takes at most TAKEN bytes. The name of each call on files that fails is
 * a line in the file FAULTS_REPORT, which is there already. FAULTS_CLOCK is what the clock reads,
 * in seconds since 1970. */
#define _GNU_SOURCE
#include <dlfcn.h>
#include <errno.h>
#include <fcntl.h>
#include <stdarg.h>
#include <stdint.h>
#include <stdio.h>
#include <stdlib.h>
#include <string.h>
#include <sys/stat.h>
#include <sys/syscall.h>
#include <time.h>
#include <unistd.h>

/* The function of this name that the program would call without this library. */
#define REAL(name) ((__typeof__(&name))dlsym(RTLD_NEXT, #name))

/* Which calls of a kind fail, and how many were made. */
struct turns {
    long first, last;
    int error;
    size_t taken;
    long done;
};

static struct turns files, out, err;
static int report = -1;

static void read_turns(const char *name, struct turns *turns) {
    const char *text = getenv(name);
    turns->taken = SIZE_MAX;
    if (text != NULL && sscanf(text, "%ld %ld %d %zu", &turns->first, &turns->last, &turns->error,
                               &turns->taken) != 4) {
        fprintf(stderr, "%s is `FIRST LAST ERROR TAKEN`\n", name);
        abort();
    }
}

__attribute__((constructor)) static void start(void) {
    read_turns("FAULTS_FILES", &files);
    read_turns("FAULTS_OUT", &out);
    read_turns("FAULTS_ERR", &err);
    const char *path = getenv("FAULTS_REPORT");
    if (path != NULL) {
        report = (int)syscall(SYS_openat, AT_FDCWD, path, O_WRONLY | O_APPEND | O_CLOEXEC, 0);
        if (report < 0) {
            abort();
        }
    }
}

/* Writes the name of a call into the report, by no call that this library counts. */
static void put_name(const char *call) {
    char line[64];
    int length = snprintf(line, sizeof line, "%s\n", call);
    if (report >= 0 && syscall(SYS_write, report, line, (size_t)length) != length) {
        abort();
    }
}

/* Counts a call, and returns whether it fails. */
static int fails(struct turns *turns, const char *call) {
    turns->done++;
    if (turns->done < turns->first || turns->done > turns->last) {
        return 0;
    }
    if (turns == &files) {
        put_name(call);
    }
    errno = turns->error;
    return 1;
}

static struct turns *turns_of(int file) {
    return file == STDOUT_FILENO ? &out : file == STDERR_FILENO ? &err : &files;
}

ssize_t write(int file, const void *bytes, size_t count) {
    struct turns *turns = turns_of(file);
    if (fails(turns, "write")) {
        return turns->error == 0 ? 0 : -1;
    }
    return REAL(write)(file, bytes, count < turns->taken ? count : turns->taken);
}

ssize_t read(int file, void *bytes, size_t count) {
    return fails(&files, "read") ? -1 : REAL(read)(file, bytes, count);
}

int open(const char *path, int flags, ...) {
    va_list rest;
    va_start(rest, flags);
    mode_t mode = (flags & (O_CREAT | O_TMPFILE)) != 0 ? va_arg(rest, mode_t) : 0;
    va_end(rest);
    return fails(&files, "open") ? -1 : REAL(open)(path, flags, mode);
}

int openat(int folder, const char *path, int flags, ...) {
    va_list rest;
    va_start(rest, flags);
    mode_t mode = (flags & (O_CREAT | O_TMPFILE)) != 0 ? va_arg(rest, mode_t) : 0;
    va_end(rest);
    return fails(&files, "open") ? -1 : REAL(openat)(folder, path, flags, mode);
}

/* A file is closed even where that fails. */
int close(int file) {
    if (fails(&files, "close")) {
        REAL(close)(file);
        errno = files.error;
        return -1;
    }
    return REAL(close)(file);
}

int statx(int folder, const char *path, int flags, unsigned mask, struct statx *found) {
    return fails(&files, "statx") ? -1 : REAL(statx)(folder, path, flags, mask, found);
}

int fchmod(int file, mode_t mode) {
    return fails(&files, "fchmod") ? -1 : REAL(fchmod)(file, mode);
}

int ftruncate(int file, off_t size) {
    return fails(&files, "ftruncate") ? -1 : REAL(ftruncate)(file, size);
}

int fsync(int file) {
    return fails(&files, "fsync") ? -1 : REAL(fsync)(file);
}

int fdatasync(int file) {
    return fails(&files, "fsync") ? -1 : REAL(fdatasync)(file);
}

int lchown(const char *path, uid_t owner, gid_t group) {
    return fails(&files, "lchown") ? -1 : REAL(lchown)(path, owner, group);
}

ssize_t readlink(const char *path, char *target, size_t size) {
    return fails(&files, "readlink") ? -1 : REAL(readlink)(path, target, size);
}

int rename(const char *from, const char *to) {
    return fails(&files, "rename") ? -1 : REAL(rename)(from, to);
}

int unlink(const char *path) {
    return fails(&files, "unlink") ? -1 : REAL(unlink)(path);
}

int clock_gettime(clockid_t clock, struct timespec *now) {
    const char *seconds = getenv("FAULTS_CLOCK");
    if (seconds == NULL || clock != CLOCK_REALTIME) {
        return REAL(clock_gettime)(clock, now);
    }
    now->tv_sec = atol(seconds);
    now->tv_nsec = 0;
    return 0;
}
