/* Refuses one request for memory of the program that it is loaded into: the one whose number, from 1,
 * the variable REFUSE has; and the threads whose bits, from 1 for the first one, are set in the number
 * that the variable THREADS has. At the end it writes how many requests there were to the file that the
 * variable REQUESTS names, if there is one. refused_memory.py uses it. */
#define _GNU_SOURCE
#include <dlfcn.h>
#include <errno.h>
#include <pthread.h>
#include <stdatomic.h>
#include <stddef.h>
#include <stdio.h>
#include <stdlib.h>

/* Threads count together. */
static atomic_ulong requests;
static atomic_ulong refused;

static int is_refused(void) {
    unsigned long number = atomic_fetch_add(&requests, 1) + 1;
    if (number == 1) {
        const char *word = getenv("REFUSE");
        atomic_store(&refused, word ? strtoul(word, NULL, 10) : 0);
    }
    if (number != atomic_load(&refused)) return 0;
    errno = ENOMEM;
    return 1;
}

void *malloc(size_t size) {
    static void *(*next)(size_t);
    if (!next) next = dlsym(RTLD_NEXT, "malloc");
    return is_refused() ? NULL : next(size);
}

void *realloc(void *block, size_t size) {
    static void *(*next)(void *, size_t);
    if (!next) next = dlsym(RTLD_NEXT, "realloc");
    return is_refused() ? NULL : next(block, size);
}

void *calloc(size_t count, size_t size) {
    static void *(*next)(size_t, size_t);
    if (!next) next = dlsym(RTLD_NEXT, "calloc");
    return is_refused() ? NULL : next(count, size);
}

void *aligned_alloc(size_t alignment, size_t size) {
    static void *(*next)(size_t, size_t);
    if (!next) next = dlsym(RTLD_NEXT, "aligned_alloc");
    return is_refused() ? NULL : next(alignment, size);
}

int posix_memalign(void **block, size_t alignment, size_t size) {
    static int (*next)(void **, size_t, size_t);
    if (!next) next = dlsym(RTLD_NEXT, "posix_memalign");
    return is_refused() ? ENOMEM : next(block, alignment, size);
}

int pthread_create(pthread_t *thread, const pthread_attr_t *attr, void *(*start)(void *), void *given) {
    static int (*next)(pthread_t *, const pthread_attr_t *, void *(*)(void *), void *);
    static atomic_ulong begun;
    const char *mask = getenv("THREADS");
    unsigned long bit = 1ul << atomic_fetch_add(&begun, 1);
    if (!next) next = (int (*)(pthread_t *, const pthread_attr_t *, void *(*)(void *), void *))dlsym(RTLD_NEXT, "pthread_create");
    return mask && strtoul(mask, NULL, 10) & bit ? EAGAIN : next(thread, attr, start, given);
}

__attribute__((destructor)) static void tell(void) {
    unsigned long made = atomic_load(&requests);
    const char *name = getenv("REQUESTS");
    FILE *file = name ? fopen(name, "w") : NULL;
    if (file) {
        fprintf(file, "%lu\n", made);
        fclose(file);
    }
}

/* A program with threads ends by this call, behind which no destructor runs. */
void _exit(int status) {
    void (*next)(int) = (void (*)(int))dlsym(RTLD_NEXT, "_exit");
    tell();
    next(status);
    __builtin_unreachable();
}
