/* Refuses allocations of the program that it is loaded into by LD_PRELOAD: those with the numbers in
 * REFUSE, one or two of them with a comma between, counted from 1 over malloc and realloc. Where MARK
 * is set, the count begins behind the first allocation of so many bytes. At the end it writes on the
 * error stream how many were counted. */
#define _GNU_SOURCE
#include <dlfcn.h>
#include <stdatomic.h>
#include <stdio.h>
#include <stdlib.h>
#include <sys/syscall.h>
#include <unistd.h>

static atomic_long count, waits;
static long first, second;
static size_t mark;

__attribute__((constructor)) static void read_words(void) {
    const char *words = getenv("REFUSE"), *size = getenv("MARK");
    if (words) sscanf(words, "%ld,%ld", &first, &second);
    if (size) mark = (size_t)atol(size), waits = 1;
}

static int is_refused(size_t size) {
    if (waits) {
        if (size == mark) waits = 0;
        return 0;
    }
    long number = ++count;
    return number == first || number == second;
}

void *malloc(size_t size) {
    static void *(*next)(size_t);
    if (!next) next = dlsym(RTLD_NEXT, "malloc");
    return is_refused(size) ? NULL : next(size);
}

void *realloc(void *place, size_t size) {
    static void *(*next)(void *, size_t);
    if (!next) next = dlsym(RTLD_NEXT, "realloc");
    return is_refused(size) ? NULL : next(place, size);
}

__attribute__((destructor)) static void tell(void) {
    long all = count;
    dprintf(2, "allocations: %ld\n", all);
}

/* A program with threads ends by it, and runs no destructor. */
void _exit(int status) {
    tell();
    syscall(SYS_exit_group, status);
    __builtin_unreachable();
}
