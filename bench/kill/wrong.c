/* A library that is wrong: it ends a dead owner's call, and tells that it hadn't begun. The tests have to see that. */
#include "universal.h"

uint32_t wrong_resume(universal_handle *seat, uint64_t made, uint64_t *reply, size_t reply_count, uint32_t *ended,
                      uint64_t *version) {
    uint32_t status = universal_small_resume(seat, made, reply, reply_count, ended, version);
    if (status == UNIVERSAL_DONE) *ended = 0;
    return status;
}
