// To be loaded before a program's libraries. Refuses one kind of call, REFUSE=allocation, thread, read or write: the one of number NUMBER,
// from 1, and with LASTING=1 each later one too. With SHORT=1 each read and each write is of one byte. The file COUNTED, if there is one, has to be of eight bytes, and holds how many there were.
#define _GNU_SOURCE
#include <dlfcn.h>
#include <errno.h>
#include <fcntl.h>
#include <pthread.h>
#include <stdatomic.h>
#include <stdio.h>
#include <stdlib.h>
#include <string.h>
#include <sys/mman.h>
#include <unistd.h>

enum kind { ALLOCATION, THREAD, READ, WRITE, NONE };
static const char *const names[] = {"allocation", "thread", "read", "write"};
static enum kind refused = NONE;
static atomic_long own_count, *count = &own_count;
static long number;
static int lasting, is_short;

__attribute__((constructor)) static void begin(void) {
    const char *name = getenv("REFUSE"), *which = getenv("NUMBER"), *always = getenv("LASTING"), *bytewise = getenv("SHORT");
    is_short = bytewise && *bytewise == '1';
    number = which ? atol(which) : 0;
    lasting = always && *always == '1';
    const char *counted = getenv("COUNTED");
    int file = counted ? open(counted, O_RDWR) : -1;
    void *kept = file < 0 ? MAP_FAILED : mmap(NULL, sizeof *count, PROT_READ | PROT_WRITE, MAP_SHARED, file, 0);
    if (file >= 0) close(file);
    if (kept != MAP_FAILED) count = kept;
    for (enum kind it = ALLOCATION; name && it < NONE; it++)
        if (strcmp(name, names[it]) == 0) refused = it;
}

static int is_refused(enum kind kind) {
    if (kind != refused) return 0;
    long it = ++*count;
    return lasting ? it >= number && number > 0 : it == number;
}

#define NEXT(name) static __typeof__(&name) next; if (!next) next = (__typeof__(&name))dlsym(RTLD_NEXT, #name)

void *malloc(size_t size) {
    NEXT(malloc);
    if (!is_refused(ALLOCATION)) return next(size);
    errno = ENOMEM;
    return NULL;
}

void *realloc(void *old, size_t size) {
    NEXT(realloc);
    if (size == 0 || !is_refused(ALLOCATION)) return next(old, size);
    errno = ENOMEM;
    return NULL;
}

int pthread_create(pthread_t *thread, const pthread_attr_t *with, void *(*run)(void *), void *given) {
    NEXT(pthread_create);
    return is_refused(THREAD) ? EAGAIN : next(thread, with, run, given);
}

ssize_t read(int from, void *into, size_t size) {
    NEXT(read);
    if (!is_refused(READ)) return next(from, into, is_short && size > 1 ? 1 : size);
    errno = EIO;
    return -1;
}

ssize_t write(int into, const void *from, size_t size) {
    NEXT(write);
    if (!is_refused(WRITE)) return next(into, from, is_short && size > 1 ? 1 : size);
    errno = EIO;
    return -1;
}
