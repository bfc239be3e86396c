// The other file.
#include "names.h"

int shared;
char room[2000];
long table[300];

int weak_here(void) {
    return 2;
}

__attribute__((weak)) int first_of_two(void) {
    return 200;
}

__attribute__((weak, visibility("hidden"))) int hidden_twice = 31;

int of_the_other(void) {
    return weak_here() * 10 + first_of_two() + hidden_twice;
}

static const char *const titles[] = {"one", "the second file"};

const char *title(void) {
    return titles[shared - 41];
}

void fill(void) {
    shared = 42;
    room[99] = 4;
    room[1999] = 5;
    table[0] = -1;
    table[299] = 1L << 40;
}

int *counter(void) {
    static int count = 40;
    return &count;
}

double area(double radius) {
    return radius * radius * 3.14159265358979 + 0.001;
}
