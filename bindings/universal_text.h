/* Runs of scripts, from bytes to bytes: a script's answers, its picture as an SVG, and its picture as lines of text.
 *
 * A script is a text of calls and steps of processes that share an object; docs/script-language.md says how it is
 * written. The functions of this file are proved in crates/universal_text. They keep nothing from call to call, and may
 * be called on any threads at once.
 *
 * What a caller owes, which nothing checks:
 *   - A pointer that is passed is not null, is aligned, and is to memory of its type that was written before; so are the
 *     elements of an array, those of `out` too, and also where it has none.
 *   - `out` and `written` share no memory with each other or with the script.
 *   - No call is left by longjmp or by a thread's cancellation.
 *
 * Any bytes are a script, perhaps one with a fault: then the call answers UNIVERSAL_TEXT_BAD_SCRIPT, and the text is the
 * line of its first fault, as "line 3: bad line" and the line's end.
 */
#ifndef UNIVERSAL_TEXT_H
#define UNIVERSAL_TEXT_H

#include <stddef.h>
#include <stdint.h>

#ifdef __cplusplus
extern "C" {
#endif

/* What a call answers. After UNIVERSAL_TEXT_DONE and UNIVERSAL_TEXT_BAD_SCRIPT the text is at the start of `out`, the
 * rest of `out` is as it was, and *written is how many bytes the text has; no null byte follows it. */
typedef enum universal_text_status {
    UNIVERSAL_TEXT_DONE = 0,
    UNIVERSAL_TEXT_BAD_SCRIPT = 1, /* the script has a fault, and the text is its line */
    UNIVERSAL_TEXT_SMALL = 2,      /* `capacity` is less than the text takes: `out` is as it was, and *written what it takes */
    UNIVERSAL_TEXT_MEMORY = 3,     /* memory was refused: `out` and *written are as they were */
    UNIVERSAL_TEXT_BAD_HISTORY = 4, /* `history` isn't from 1 to 16,777,216: `out` and *written are as they were */
    UNIVERSAL_TEXT_MISDRAWN = 5    /* the drawing does not show the run, of which no script is known: both are as they were */
} universal_text_status;

/* How many events a script's history can have where `unibench replay` isn't told. */
#define UNIVERSAL_TEXT_HISTORY ((uint64_t)1048576)

/* Runs a script, whose history can have so many events, and writes its answers: what `unibench replay` writes.
 *
 * UNIVERSAL_TEXT_BAD_HISTORY comes before each other status. */
uint32_t universal_replay(const uint8_t *script, size_t length, uint64_t history, uint8_t *out, size_t capacity,
                          size_t *written);

/* Draws a picture of a script's run, by the code of `unidraw`, and writes the text of its SVG. A script of more than
 * 2,000 events has none: UNIVERSAL_TEXT_BAD_SCRIPT, and the text is
 * "too many events for a picture: at most 2000" and the line's end.
 * Its history can have UNIVERSAL_TEXT_HISTORY events. */
uint32_t universal_draw(const uint8_t *script, size_t length, uint8_t *out, size_t capacity, size_t *written);

/* A picture of it as lines of a terminal of 100 columns, by the code of `unidraw --text`. */
uint32_t universal_lines(const uint8_t *script, size_t length, uint8_t *out, size_t capacity, size_t *written);

#ifdef __cplusplus
}
#endif
#endif
