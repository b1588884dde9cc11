/* Loaded before the C library: numbers the calls of open, read, write and close together, from 1 on. Settings:
   FAIL_AT, FAIL_WITH   the call of this number fails with this error; a write takes nothing where the error is 0
   PIECE                no read gives, and no write takes, more bytes than this
   OUT_ROOM, FILE_ROOM  so many bytes find room in the standard output, and in files; a write that finds none fails with FAIL_WITH
   CALLS_TO             names a file that gets a line for each call: what it does, and the name of the file that it is on */
#define _GNU_SOURCE
#include <dlfcn.h>
#include <errno.h>
#include <fcntl.h>
#include <stdarg.h>
#include <stdio.h>
#include <stdlib.h>
#include <unistd.h>

enum { OUT = 1, OPEN = 64, LENGTH = 512 };

static char names[OPEN][LENGTH];
static long count;
static long out_taken;
static long files_taken;

/* What a setting says, or this where it isn't there. */
static long setting(const char *name, long otherwise) {
    const char *value = getenv(name);
    return value ? atol(value) : otherwise;
}

static const char *name_of(int file) {
    return file == OUT ? "-" : file >= 0 && file < OPEN ? names[file] : "?";
}

/* Tells of a call, and whether it has to fail, with the error then. */
static int fails(const char *what, const char *name) {
    static FILE *calls;
    const char *told = getenv("CALLS_TO");
    if (told && !calls) calls = fopen(told, "w");
    if (calls) fprintf(calls, "%s %s\n", what, name);
    errno = (int)setting("FAIL_WITH", EIO);
    return ++count == setting("FAIL_AT", 0);
}

/* The lesser of a length and of what the setting PIECE allows. */
static size_t piece_of(size_t length) {
    size_t most = (size_t)setting("PIECE", (long)length);
    return length < most ? length : most;
}

int open(const char *path, int flags, ...) {
    static int (*real)(const char *, int, ...);
    va_list more;
    va_start(more, flags);
    int mode = flags & O_CREAT ? va_arg(more, int) : 0;
    va_end(more);
    if (!real) real = (int (*)(const char *, int, ...))dlsym(RTLD_NEXT, "open");
    if (fails(flags & O_CREAT ? "create" : "open", path)) return -1;
    int file = real(path, flags, mode);
    if (file >= 0 && file < OPEN) snprintf(names[file], LENGTH, "%s", path);
    return file;
}

ssize_t read(int file, void *bytes, size_t length) {
    static ssize_t (*real)(int, void *, size_t);
    if (!real) real = (ssize_t(*)(int, void *, size_t))dlsym(RTLD_NEXT, "read");
    return fails("read", name_of(file)) ? -1 : real(file, bytes, piece_of(length));
}

ssize_t write(int file, const void *bytes, size_t length) {
    static ssize_t (*real)(int, const void *, size_t);
    long *taken = file == OUT ? &out_taken : &files_taken;
    long room = setting(file == OUT ? "OUT_ROOM" : "FILE_ROOM", -1);
    if (!real) real = (ssize_t(*)(int, const void *, size_t))dlsym(RTLD_NEXT, "write");
    if (fails("write", name_of(file)) || room == *taken) return errno ? -1 : 0;
    length = piece_of(length);
    if (room >= 0 && (long)length > room - *taken) length = (size_t)(room - *taken);
    ssize_t written = real(file, bytes, length);
    if (written > 0) *taken += written;
    return written;
}

int close(int file) {
    static int (*real)(int);
    if (!real) real = (int (*)(int))dlsym(RTLD_NEXT, "close");
    int failed = fails("close", name_of(file)), error = errno;
    int closed = real(file);
    errno = error;
    return failed ? -1 : closed;
}
