/* Counts the allocations of the program that it is loaded into, and refuses the one whose number
   REFUSE has, from 1. At the end it writes how many there were, and how many sockets were asked
   for, into the file that REFUSE_TOLD names. For LD_PRELOAD, on Linux with glibc. */
#define _GNU_SOURCE
#include <dlfcn.h>
#include <errno.h>
#include <stdio.h>
#include <stdlib.h>

extern void *__libc_malloc(size_t);
extern void *__libc_calloc(size_t, size_t);
extern void *__libc_realloc(void *, size_t);
extern void *__libc_memalign(size_t, size_t);

static long count, refused = -1, sockets;

/* Whether this allocation is the one to refuse. */
static int refuses(void) {
    if (refused < 0) {
        const char *told = getenv("REFUSE");
        refused = told ? atol(told) : 0;
    }
    count += 1;
    return count == refused;
}

void *malloc(size_t size) {
    return refuses() ? (errno = ENOMEM, NULL) : __libc_malloc(size);
}

void *calloc(size_t many, size_t size) {
    return refuses() ? (errno = ENOMEM, NULL) : __libc_calloc(many, size);
}

void *realloc(void *old, size_t size) {
    return refuses() ? (errno = ENOMEM, NULL) : __libc_realloc(old, size);
}

void *aligned_alloc(size_t align, size_t size) {
    return refuses() ? (errno = ENOMEM, NULL) : __libc_memalign(align, size);
}

int posix_memalign(void **to, size_t align, size_t size) {
    if (refuses() || !(*to = __libc_memalign(align, size))) return ENOMEM;
    return 0;
}

int socket(int domain, int type, int protocol) {
    sockets += 1;
    int (*real)(int, int, int) = (int (*)(int, int, int))dlsym(RTLD_NEXT, "socket");
    return real(domain, type, protocol);
}

__attribute__((destructor)) static void tell(void) {
    long counted = count, asked = sockets;
    const char *name = getenv("REFUSE_TOLD");
    FILE *file = name ? fopen(name, "w") : NULL;
    if (file) {
        fprintf(file, "%ld %ld\n", counted, asked);
        fclose(file);
    }
}

/* A program with threads ends so, and no destructor is run. */
void _exit(int status) {
    tell();
    void (*real)(int) = (void (*)(int))dlsym(RTLD_NEXT, "_exit");
    real(status);
    __builtin_unreachable();
}
