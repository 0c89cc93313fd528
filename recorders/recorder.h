/* Records what threads do with an object, as lines that `unicheck` reads: NAME CALL -> REPLY BEGIN END.
 *
 * A number is drawn from one counter before a call begins, and another after it has returned, so calls that the lines put
 * one after the other were made so. C11; each thread has a log of its own, and the logs are printed after the join. */
#pragma once

#include <stdarg.h>
#include <stdatomic.h>
#include <stdint.h>
#include <stdio.h>
#include <stdlib.h>

enum { RECORD_WORDS = 48 };

struct record_call {
    char words[RECORD_WORDS], reply[RECORD_WORDS];
    uint64_t begin, end;
};

struct record_log {
    const char *name;
    struct record_call *calls;
    size_t count, room;
};

static _Atomic uint64_t record_clock;

/* A call begins, as record_begin(&log, "enq %d", 7). */
static void record_begin(struct record_log *log, const char *format, ...) {
    if (log->count == log->room) {
        log->room = log->room ? 2 * log->room : 1024;
        log->calls = realloc(log->calls, log->room * sizeof *log->calls);
        if (!log->calls) abort();
    }
    struct record_call *call = &log->calls[log->count++];
    va_list rest;
    va_start(rest, format);
    vsnprintf(call->words, sizeof call->words, format, rest);
    va_end(rest);
    call->reply[0] = 0;
    call->begin = atomic_fetch_add(&record_clock, 1);
}

/* The call has returned, as record_end(&log, "ok"). */
static void record_end(struct record_log *log, const char *format, ...) {
    struct record_call *call = &log->calls[log->count - 1];
    call->end = atomic_fetch_add(&record_clock, 1);
    va_list rest;
    va_start(rest, format);
    vsnprintf(call->reply, sizeof call->reply, format, rest);
    va_end(rest);
}

static void record_print(const struct record_log *log, FILE *out) {
    for (const struct record_call *call = log->calls; call < log->calls + log->count; call++) {
        fprintf(out, "%s %s -> %s %ju", log->name, call->words, call->reply[0] ? call->reply : "?", (uintmax_t)call->begin);
        fprintf(out, call->reply[0] ? " %ju\n" : "\n", (uintmax_t)call->end);
    }
}
