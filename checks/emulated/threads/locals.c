// The other file: variables that both use, and one with an alignment of its own.
#include "locals.h"

_Thread_local int calls = 3;
_Thread_local char letters[5] = "abcd";
static _Thread_local char small = 1;
static _Thread_local _Alignas(16) char wide[16];
static _Thread_local const char *text = "a pointer in the template";

int note(int count) {
    calls += count;
    small++;
    wide[15] = (char)(small + count);
    return wide[15];
}

int aligned_by(unsigned long unit) {
    return (unsigned long)wide % unit == 0 && small == 3 && wide[15] == 5 && !wide[14];
}

const char *word(void) {
    return text;
}
