/* Adds 1 so many times to a counter that another process has made: shared_add NAME SEATS CALLS */
#include "universal_shared.h"
#include <stdio.h>
#include <stdlib.h>

int main(int argc, char **argv) {
    const universal_shared_kind counter = {.object = UNIVERSAL_SHARED_COUNTER};
    universal_shared_segment *segment = NULL;
    universal_shared_seat *seat = NULL;
    universal_shared_last last;
    uint64_t one = 1, before = 0, version = 0;
    if (argc != 4) return 2;
    uint32_t status = universal_shared_attach_named(argv[1], &counter, strtoull(argv[2], NULL, 10), &segment);
    if (!status) status = universal_shared_claim(segment, -1, &seat, &last);
    for (long calls = atol(argv[3]); calls && !status; calls--)
        status = universal_shared_apply(seat, &one, 1, &before, 1, &version);
    if (status) fprintf(stderr, "%s\n", universal_shared_strerror(status));
    return status != 0;
}
