/* Refuses an allocation by its number, from 1 on. Link with -Wl,--wrap=malloc,--wrap=realloc. */
#ifndef REFUSING_H
#define REFUSING_H

#include <stdbool.h>
#include <stddef.h>

void *__real_malloc(size_t size);
void *__real_realloc(void *at, size_t size);

/* How many allocations were asked for, and the number of the one that is refused; 0 for none. */
static long asked, refused;

static bool refuses(void) {
    return ++asked == refused;
}

void *__wrap_malloc(size_t size) {
    return refuses() ? NULL : __real_malloc(size);
}

void *__wrap_realloc(void *at, size_t size) {
    return refuses() ? NULL : __real_realloc(at, size);
}

#endif
