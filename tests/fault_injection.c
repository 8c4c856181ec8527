/* Refuses one growth of memory, or one start of a thread, of the program that it is loaded into.
 *
 * REFUSE_GROWTH=N refuses the Nth call of malloc, calloc or realloc behind the start of main, REFUSE_START=N the Nth
 * pthread_create, counted from 1. What was asked for is written to the file that REFUSE_REPORT names, as the program
 * ends: 'growths N' and 'starts N'. */
#define _GNU_SOURCE
#include <dlfcn.h>
#include <errno.h>
#include <pthread.h>
#include <stdatomic.h>
#include <stdio.h>
#include <stdlib.h>
#include <sys/syscall.h>
#include <unistd.h>

extern void *__libc_malloc(size_t);
extern void *__libc_calloc(size_t, size_t);
extern void *__libc_realloc(void *, size_t);

static atomic_ulong growths, starts;
static unsigned long refused_growth, refused_start;
static atomic_int counts;

static unsigned long number(const char *name) {
    const char *text = getenv(name);
    return text ? strtoul(text, NULL, 10) : 0;
}

__attribute__((constructor)) static void begin(void) {
    refused_growth = number("REFUSE_GROWTH");
    refused_start = number("REFUSE_START");
    counts = 1;
}

static void tell(void) {
    const char *path = getenv("REFUSE_REPORT");
    FILE *report;
    if (!atomic_exchange(&counts, 0))
        return;
    report = path ? fopen(path, "w") : NULL;
    if (report) {
        fprintf(report, "growths %lu\nstarts %lu\n", growths, starts);
        fclose(report);
    }
}

__attribute__((destructor)) static void end(void) {
    tell();
}

/* where a program ends so, no destructor runs */
void _exit(int status) {
    tell();
    syscall(SYS_exit_group, status);
    __builtin_unreachable();
}

/* pthread_create takes memory of its own, which isn't the program's */
static _Thread_local int inside;

static int refuses_growth(void) {
    return counts && !inside && atomic_fetch_add(&growths, 1) + 1 == refused_growth;
}

void *malloc(size_t size) {
    if (refuses_growth()) {
        errno = ENOMEM;
        return NULL;
    }
    return __libc_malloc(size);
}

void *calloc(size_t count, size_t size) {
    if (refuses_growth()) {
        errno = ENOMEM;
        return NULL;
    }
    return __libc_calloc(count, size);
}

void *realloc(void *old, size_t size) {
    if (refuses_growth()) {
        errno = ENOMEM;
        return NULL;
    }
    return __libc_realloc(old, size);
}

int pthread_create(pthread_t *thread, const pthread_attr_t *attributes, void *(*run)(void *), void *argument) {
    static int (*make)(pthread_t *, const pthread_attr_t *, void *(*)(void *), void *);
    int status;
    if (!make)
        make = dlsym(RTLD_NEXT, "pthread_create");
    if (atomic_fetch_add(&starts, 1) + 1 == refused_start)
        return EAGAIN;
    inside = 1;
    status = make(thread, attributes, run, argument);
    inside = 0;
    return status;
}
