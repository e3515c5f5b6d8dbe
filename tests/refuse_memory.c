/* Refuses a program's allocations, to be preloaded. REFUSE=N refuses the Nth, REFUSE_FROM=N each from the Nth on.
   At the end the number of allocations, and how many blocks were not given back, go to the file that REFUSE_COUNT names. */
#define _GNU_SOURCE
#include <errno.h>
#include <stdio.h>
#include <stdlib.h>
#include <sys/syscall.h>
#include <unistd.h>

extern void *__libc_malloc(size_t);
extern void *__libc_calloc(size_t, size_t);
extern void *__libc_realloc(void *, size_t);
extern void __libc_free(void *);

static unsigned long one, from;
/* (a program may have threads) */
static _Atomic unsigned long made;
static _Atomic long held;

__attribute__((constructor)) static void begin(void) {
    const char *n = getenv("REFUSE"), *first = getenv("REFUSE_FROM");
    made = 0;
    one = n ? strtoul(n, NULL, 10) : 0;
    from = first ? strtoul(first, NULL, 10) : 0;
}

__attribute__((destructor)) static void end(void) {
    const char *path = getenv("REFUSE_COUNT");
    unsigned long all = made;
    long left = held;
    one = from = 0;
    FILE *file = path ? fopen(path, "w") : NULL;
    if (file) {
        fprintf(file, "%lu %ld\n", all, left);
        fclose(file);
    }
}

/* A program that may have threads ends by this call, which runs no destructor. */
void _exit(int status) {
    end();
    for (;;) syscall(SYS_exit_group, status);
}

static int refused(void) {
    unsigned long number = ++made;
    if (number == one || (from && number >= from)) {
        errno = ENOMEM;
        return 1;
    }
    return 0;
}

static void *counted(void *block) {
    held += block != NULL;
    return block;
}

void *malloc(size_t size) { return refused() ? NULL : counted(__libc_malloc(size)); }

void *calloc(size_t number, size_t size) { return counted(__libc_calloc(number, size)); }

void *realloc(void *old, size_t size) {
    if (refused()) return NULL;
    return old ? __libc_realloc(old, size) : counted(__libc_realloc(old, size));
}

void free(void *block) {
    held -= block != NULL;
    __libc_free(block);
}
