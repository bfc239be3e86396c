// A clean-up that runs when an exception passes: unwind entries with a personality and language data, and lines for a debugger.
#include "counters.h"

int abs(int number);

static void forget(int *kept) {
    *kept = abs(*kept) - *kept;
}

int guarded(int (*action)(void)) {
    __attribute__((cleanup(forget))) int kept = 1;
    return action() * kept;
}
