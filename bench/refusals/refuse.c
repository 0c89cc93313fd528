/* Loaded before the C library, it refuses one request for memory: the one whose number REFUSED gives, from 1.
   It says on standard error where a program asked for less. */
#define _GNU_SOURCE
#include <dlfcn.h>
#include <stdatomic.h>
#include <stdlib.h>
#include <sys/syscall.h>
#include <unistd.h>

static atomic_ulong requests;
static unsigned long refused;
static void *(*its_malloc)(size_t);
static void *(*its_realloc)(void *, size_t);

__attribute__((constructor)) static void start(void) {
    const char *number = getenv("REFUSED");
    its_malloc = (void *(*)(size_t))dlsym(RTLD_NEXT, "malloc");
    its_realloc = (void *(*)(void *, size_t))dlsym(RTLD_NEXT, "realloc");
    atomic_store(&requests, 0);
    refused = number ? strtoul(number, 0, 10) : 0;
}

__attribute__((destructor)) static void end(void) {
    static const char text[] = "met no refusal\n";
    if (atomic_load(&requests) < refused && write(2, text, sizeof text - 1) < 0) syscall(SYS_exit_group, 9);
}

/* A program that ends so runs no destructor. */
void _exit(int status) {
    end();
    for (;;) syscall(SYS_exit_group, status);
}

static int refuses(void) { return atomic_fetch_add(&requests, 1) + 1 == refused; }

void *malloc(size_t size) {
    if (!its_malloc) its_malloc = (void *(*)(size_t))dlsym(RTLD_NEXT, "malloc");
    return refuses() ? 0 : its_malloc(size);
}

void *realloc(void *block, size_t size) {
    if (!its_realloc) its_realloc = (void *(*)(void *, size_t))dlsym(RTLD_NEXT, "realloc");
    return refuses() ? 0 : its_realloc(block, size);
}
