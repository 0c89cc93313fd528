/* The version that universal.h says: no prover reads it. */
#include "universal.h"

uint32_t universal_version(void) { return UNIVERSAL_VERSION; }
