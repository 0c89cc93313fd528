/* An object of one's own: a counter with a limit, by a program of instructions. A call adds its word where the sum is at most
 * 2^40, and is answered the sum before. */
#include "universal_program.h"
#include "universal_shared.h"

static universal_shared_kind limited_counter(void) {
    static universal_instruction code[8];
    static const uint64_t start[1];
    enum { sum, amount, more, limit };
    up_program p = UP_PROGRAM(code);
    up_load(&p, sum, UP_STATE, 0);
    up_answer(&p, 0, sum);
    up_load(&p, amount, UP_INVOCATION, 0);
    up_add(&p, more, sum, amount, UP_END);
    up_set(&p, limit, (uint64_t)1 << 40);
    up_if_less(&p, limit, more, UP_END);
    up_store(&p, 0, more);
    up_close(&p);
    return (universal_shared_kind){.object = UNIVERSAL_SHARED_PROGRAM,
                                   .code = code,
                                   .count = p.count,
                                   .start = start,
                                   .words = 1,
                                   .invocation = 1,
                                   .answer = 1};
}
