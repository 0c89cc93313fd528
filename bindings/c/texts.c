/* Scripts from bytes to bytes: each call on its happy path, and each refusal; then with each allocation refused in turn. */
#include "universal_text.h"
#include "refusing.h"
#include <stdbool.h>
#include <stdio.h>
#include <stdlib.h>
#include <string.h>

typedef uint32_t (*text_of)(const uint8_t *, size_t, uint8_t *, size_t, size_t *);

static uint64_t history = UNIVERSAL_TEXT_HISTORY;

static uint32_t replay(const uint8_t *script, size_t length, uint8_t *out, size_t capacity, size_t *written) {
    return universal_replay(script, length, history, out, capacity, written);
}

enum { ROOM = 1 << 16, NEVER = 12345, UNTOUCHED = '~' };

static uint8_t out[ROOM];
static size_t written;
static int wrong = 0;

static void expect(bool holds, const char *what, int line) {
    if (!holds) {
        fprintf(stderr, "texts.c:%d: allocation %ld refused, not so: %s\n", line, refused, what);
        wrong++;
    }
}

#define EXPECT(holds) expect(holds, #holds, __LINE__)

/* A call over a script, with this room in a buffer of its own size, so that a write past its end is seen. */
static uint32_t call(text_of text, const char *script, size_t room) {
    uint8_t *exact = __real_malloc(room + 1);
    memset(exact, UNTOUCHED, room + 1);
    memset(out, UNTOUCHED, ROOM);
    written = NEVER;
    uint32_t status = text((const uint8_t *)script, strlen(script), exact, room, &written);
    EXPECT(exact[room] == UNTOUCHED);
    memcpy(out, exact, room);
    free(exact);
    return status;
}

/* Nothing is written from this byte on. */
static bool untouched(size_t from) {
    for (size_t i = from; i < ROOM; i++) {
        if (out[i] != UNTOUCHED)
            return false;
    }
    return true;
}

/* With room for it, a script's text is exactly this; with a byte less, only its length is told. */
static void is(text_of text, const char *script, uint32_t status, const char *wanted) {
    size_t length = strlen(wanted);
    EXPECT(call(text, script, length + 100) == status);
    EXPECT(written == length && memcmp(out, wanted, length) == 0 && untouched(length));
    EXPECT(call(text, script, length) == status);
    EXPECT(written == length && memcmp(out, wanted, length) == 0);
    if (length > 0) {
        EXPECT(call(text, script, length - 1) == UNIVERSAL_TEXT_SMALL);
        EXPECT(written == length && untouched(0));
        EXPECT(call(text, script, 0) == UNIVERSAL_TEXT_SMALL);
        EXPECT(written == length && untouched(0));
    }
}

static const char *const SCRIPT = "universal 1 queue 2 8\n"
                                  "call 0 enq 10\n"
                                  "step 0 10\n"
                                  "finish 0\n"
                                  "log\n";
static const char *const ANSWERS = "called 0.0\n"
                                   "going 0.0 steps 10 turns 1\n"
                                   "returned 0.0 ok steps 16 turns 1\n"
                                   "2 0.0 enq 10 -> ok\n"
                                   "end\n";

static void replays(void) {
    is(replay, SCRIPT, UNIVERSAL_TEXT_DONE, ANSWERS);
    is(replay, "universal 1 queue 1 1\n", UNIVERSAL_TEXT_DONE, "end\n");
    is(replay, "", UNIVERSAL_TEXT_BAD_SCRIPT, "line 1: no header\n");
    is(replay, "universal 1 queue 2 8\ncall 0 enq 10\nstop\n", UNIVERSAL_TEXT_BAD_SCRIPT, "line 3: bad line\n");
    is(replay, "universal 1 queue 2 8\n\xff\n", UNIVERSAL_TEXT_BAD_SCRIPT, "line 2: bad byte\n");
}

/* The line after the last that a script can have. */
static void lines_past_the_most(void) {
    static char long_script[100100] = "universal 1 queue 1 1\n";
    size_t header = strlen(long_script);
    memset(long_script + header, '\n', 100000);
    const text_of all[] = {replay, universal_draw, universal_lines};
    for (size_t i = 0; i < 3; i++)
        is(all[i], long_script, UNIVERSAL_TEXT_BAD_SCRIPT, "line 100001: too many lines\n");
    long_script[header + 99999] = 0;
    is(replay, long_script, UNIVERSAL_TEXT_DONE, "end\n");
}

static void histories(void) {
    const uint64_t bad[] = {0, 16777217, UINT64_MAX};
    for (size_t i = 0; i < 3; i++) {
        history = bad[i];
        EXPECT(call(replay, SCRIPT, 1000) == UNIVERSAL_TEXT_BAD_HISTORY);
        EXPECT(written == NEVER && untouched(0));
        EXPECT(call(replay, "", 0) == UNIVERSAL_TEXT_BAD_HISTORY);
    }
    history = 16777216;
    is(replay, SCRIPT, UNIVERSAL_TEXT_DONE, ANSWERS);
    /* a call of one of two processes asks for 10 * 2 + 13 events */
    history = 33;
    is(replay, SCRIPT, UNIVERSAL_TEXT_DONE, ANSWERS);
    history = 32;
    is(replay, SCRIPT, UNIVERSAL_TEXT_DONE, "refused history\nrefused idle 0\nrefused idle 0\nend\n");
    history = UNIVERSAL_TEXT_HISTORY;
}

/* A picture begins and ends as an SVG does, and the lines tell the process; a script without one has the same line. */
static void pictures(void) {
    EXPECT(call(universal_draw, SCRIPT, ROOM) == UNIVERSAL_TEXT_DONE);
    EXPECT(memcmp(out, "<svg ", 5) == 0 && memcmp(out + written - 7, "</svg>\n", 7) == 0 && untouched(written));
    size_t length = written;
    EXPECT(call(universal_draw, SCRIPT, length - 1) == UNIVERSAL_TEXT_SMALL && written == length && untouched(0));
    EXPECT(call(universal_lines, SCRIPT, ROOM) == UNIVERSAL_TEXT_DONE && written > 0 && untouched(written));
    const text_of both[] = {universal_draw, universal_lines};
    for (size_t i = 0; i < 2; i++) {
        is(both[i], "", UNIVERSAL_TEXT_BAD_SCRIPT, "line 1: no header\n");
        is(both[i], "universal 1 queue 2 8\ncall 0 enq 10\nstop\n", UNIVERSAL_TEXT_BAD_SCRIPT, "line 3: bad line\n");
    }
    char many[40000] = "universal 1 queue 1 1000\n";
    for (int i = 0; i < 150; i++)
        strcat(many, "call 0 enq 1\nfinish 0\n");
    const char *const none = "too many events for a picture: at most 2000\n";
    is(universal_draw, many, UNIVERSAL_TEXT_BAD_SCRIPT, none);
    is(universal_lines, many, UNIVERSAL_TEXT_BAD_SCRIPT, none);
}

/* Each allocation of a call is refused in turn: memory was refused, and nothing is written; or all is as ever. */
static long each(text_of text, const char *script) {
    static uint8_t whole[ROOM];
    uint32_t status = call(text, script, ROOM);
    size_t length = written;
    memcpy(whole, out, ROOM);
    for (refused = 1;; refused++) {
        asked = 0;
        uint32_t found = call(text, script, ROOM);
        if (asked < refused)
            break;
        if (found == UNIVERSAL_TEXT_MEMORY)
            EXPECT(written == NEVER && untouched(0));
        else
            EXPECT(found == status && written == length && memcmp(out, whole, ROOM) == 0);
    }
    long last = refused - 1;
    refused = 0;
    return last;
}

int main(void) {
    replays();
    lines_past_the_most();
    histories();
    pictures();
    long of_answers = each(replay, SCRIPT), of_fault = each(replay, ""), of_picture = each(universal_draw, SCRIPT),
         of_lines = each(universal_lines, SCRIPT);
    EXPECT(of_answers > 0 && of_fault > 0 && of_picture > of_answers && of_lines > of_answers);
    if (wrong == 0)
        printf("texts: as the header says; %ld, %ld, %ld and %ld allocations refused in turn\n", of_answers, of_fault,
               of_picture, of_lines);
    return wrong != 0;
}
