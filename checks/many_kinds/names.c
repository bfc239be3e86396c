// Strings of which some are alike, a table of pointers to them, and a common variable.
#include "counters.h"

int last_number;

static const char *const names[] = {"none", "one", "two", "none"};

const char *name_of(int number) {
    last_number = number;
    return names[number & 3];
}

int add_up(int first, int last) {
    int sum = 0;
    for (int number = first; number <= last; number++)
        sum += number;
    return sum;
}
