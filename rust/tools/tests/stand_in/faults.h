/* What the calls of the stand-in share: which fault is wanted. */
#ifndef FAULTS_H
#define FAULTS_H

#include "market_risk.h"

#include <stdlib.h>
#include <string.h>

/* Whether STAND_IN is this name. */
static inline int named(const char *name) {
    const char *given = getenv("STAND_IN");
    return given && !strcmp(given, name);
}

/* Writes zeros if a call is taken out. */
static inline int taken_out(const char *call, uint64_t *out, size_t entries) {
    if (!named(call) && !named("all")) return 0;
    memset(out, 0, entries * sizeof *out);
    return 1;
}

#endif
