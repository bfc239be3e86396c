// A library below the library.
#include "count.h"

int puts(const char *);

static int calls;

__attribute__((constructor)) static void begin(void) {
    puts("the lower library begins");
}

int base(int number) {
    calls++;
    return number + 100;
}

int base_calls(void) {
    return calls;
}
