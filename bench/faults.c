/* A library for LD_PRELOAD: lets one growth of memory, or one call of the system, of a program fail. bench/sweep builds and uses it.

   FAULT_KIND   grow: malloc, calloc and realloc are counted; call: the calls of the system below; short: none fails, and
                each read and write takes one byte
   FAULT_AT     the number of what fails, from 1; 0: nothing
   FAULT_DOES   1: the call is made, and told as failed all the same
   FAULT_COUNT  a file that gets the count at the end, and the name of the call that failed */
#define _GNU_SOURCE
#include <dirent.h>
#include <dlfcn.h>
#include <errno.h>
#include <fcntl.h>
#include <stdarg.h>
#include <stdio.h>
#include <stdlib.h>
#include <string.h>
#include <sys/stat.h>
#include <unistd.h>

enum kind { UNKNOWN, GROW, CALL, SHORT };

static enum kind kind;
static long at, count;
static int does;
static const char *failed = "";

#define REAL(name) ((__typeof__(&name))dlsym(RTLD_NEXT, #name))

static void look(void) {
    if (kind != UNKNOWN) return;
    const char *said = getenv("FAULT_KIND");
    const char *number = getenv("FAULT_AT");
    const char *made = getenv("FAULT_DOES");
    at = number ? atol(number) : 0;
    does = made && *made == '1';
    kind = !said || !strcmp(said, "call") ? CALL : !strcmp(said, "grow") ? GROW : SHORT;
}

static int fails(enum kind asked, const char *name) {
    look();
    if (kind != asked || ++count != at) return 0;
    failed = name;
    return 1;
}

/* What dlsym itself asks for before it has told where malloc is. */
static char room[65536];
static size_t used;

static void *from_room(size_t size) {
    void *place = room + used;
    used += (size + 15) & ~(size_t)15;
    return used <= sizeof room ? place : NULL;
}

static void *(*real_malloc)(size_t);
static void *(*real_realloc)(void *, size_t);
static void *(*real_calloc)(size_t, size_t);
static void (*real_free)(void *);

__attribute__((constructor)) static void begin(void) {
    real_realloc = REAL(realloc);
    real_calloc = REAL(calloc);
    real_free = REAL(free);
    real_malloc = REAL(malloc);
    look();
}

void *malloc(size_t size) {
    if (!real_malloc) return from_room(size);
    return fails(GROW, "malloc") ? (errno = ENOMEM, NULL) : real_malloc(size);
}

void *calloc(size_t items, size_t size) {
    if (!real_malloc) return from_room(items * size);
    return fails(GROW, "calloc") ? (errno = ENOMEM, NULL) : real_calloc(items, size);
}

void *realloc(void *place, size_t size) {
    if (!real_malloc) return from_room(size);
    return fails(GROW, "realloc") ? (errno = ENOMEM, NULL) : real_realloc(place, size);
}

void free(void *place) {
    if ((char *)place >= room && (char *)place < room + sizeof room) return;
    if (real_free) real_free(place);
}

/* A call that fails with this error, after it was made where that is asked. */
#define CALLED(name, error, made)                \
    if (!fails(CALL, name)) return made;         \
    if (does) (void)!made;                       \
    errno = error;                               \
    return -1

static mode_t mode_of(int flags, va_list rest) {
    return flags & (O_CREAT | O_TMPFILE) ? va_arg(rest, mode_t) : 0;
}

int open(const char *path, int flags, ...) {
    va_list rest;
    va_start(rest, flags);
    mode_t mode = mode_of(flags, rest);
    va_end(rest);
    if (!fails(CALL, "open")) return REAL(open)(path, flags, mode);
    errno = EMFILE;
    return -1;
}

int openat(int folder, const char *path, int flags, ...) {
    va_list rest;
    va_start(rest, flags);
    mode_t mode = mode_of(flags, rest);
    va_end(rest);
    if (!fails(CALL, "openat")) return REAL(openat)(folder, path, flags, mode);
    errno = EMFILE;
    return -1;
}

ssize_t read(int file, void *bytes, size_t size) {
    look();
    if (kind == SHORT && size > 1) size = 1;
    if (!fails(CALL, "read")) return REAL(read)(file, bytes, size);
    errno = EIO;
    return -1;
}

ssize_t write(int file, const void *bytes, size_t size) {
    look();
    if (kind == SHORT && size > 1) size = 1;
    /* What it says at its end is no part of what is tried. */
    if (file == STDERR_FILENO) return REAL(write)(file, bytes, size);
    CALLED("write", ENOSPC, REAL(write)(file, bytes, size));
}

int close(int file) {
    if (!fails(CALL, "close")) return REAL(close)(file);
    REAL(close)(file);
    errno = EIO;
    return -1;
}

int rename(const char *from, const char *to) { CALLED("rename", EACCES, REAL(rename)(from, to)); }
int unlink(const char *path) { CALLED("unlink", EACCES, REAL(unlink)(path)); }
int mkdir(const char *path, mode_t mode) { CALLED("mkdir", ENOSPC, REAL(mkdir)(path, mode)); }
int fchmod(int file, mode_t mode) { CALLED("fchmod", EPERM, REAL(fchmod)(file, mode)); }

int statx(int folder, const char *restrict path, int flags, unsigned mask, struct statx *restrict found) {
    if (!fails(CALL, "statx")) return REAL(statx)(folder, path, flags, mask, found);
    errno = EACCES;
    return -1;
}

ssize_t getdents64(int folder, void *names, size_t size) {
    if (!fails(CALL, "getdents64")) return REAL(getdents64)(folder, names, size);
    errno = EIO;
    return -1;
}

__attribute__((destructor)) static void tell(void) {
    const char *path = getenv("FAULT_COUNT");
    char text[64];
    if (!path) return;
    int file = REAL(open)(path, O_WRONLY | O_CREAT | O_TRUNC, 0644);
    int length = snprintf(text, sizeof text, "%ld %s\n", count, failed);
    if (REAL(write)(file, text, length)) {
    }
    REAL(close)(file);
}
