// Thread-local variables with and without a first value, and an initializer.
#include "counters.h"

static _Thread_local int calls;
static _Thread_local int step = 1;
static int started;

__attribute__((constructor)) static void start(void) {
    started = 1;
}

int note_call(void) {
    calls += step;
    return started;
}

int calls_so_far(void) {
    return calls;
}
