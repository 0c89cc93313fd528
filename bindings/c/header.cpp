/* The headers in C++: they compile without a warning, and their macros are values. */
#include "universal.h"
#include "universal_shared.h"
#include "universal_text.h"

static universal_handle at_start = UNIVERSAL_NONE;

int main() {
    universal_handle handle = UNIVERSAL_NONE;
    handle = UNIVERSAL_NONE;
    static_assert(UNIVERSAL_FETCH_ADD(-1) >> 31 == 3, "the operation is a fetch-add");
    const uint64_t insert[] = UNIVERSAL_MAP_INSERT(-1, 70), take[] = UNIVERSAL_QUEUE_TAKE;
    if (insert[1] != UINT64_MAX || take[0] != 0)
        return 1;
    if (universal_shared_strerror(UNIVERSAL_SHARED_TAKEN)[4] != 's' || universal_shared_strerror(UNIVERSAL_FULL)[4] != 's')
        return 1;
    return handle.at == at_start.at && universal_strerror(UNIVERSAL_SPENT)[0] == 't' ? 0 : 1;
}
