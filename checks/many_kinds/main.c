// Strings, calls to the other files, pointers to functions, and a call of a library.
#include "counters.h"

int printf(const char *format, ...);

static int (*const actions[])(int) = {scaled, 0};

int main(void) {
    for (int number = 0; number < 3; number++)
        printf("%d: %s, %d\n", number, name_of(number), actions[0](add_up(0, number)));
    return guarded(note_call) + calls_so_far() == 2 ? 0 : 1;
}
