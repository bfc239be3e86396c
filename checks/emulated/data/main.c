// Names that several files define, commons, data of zeros, large alignments, constants.
#include "names.h"

int printf(const char *format, ...);
void *memset(void *, int, unsigned long);

int shared;       // a common in both files
char room[100];   // a smaller one than in the other file
long table[300];
char zeros[50000];
static char many_zeros[40 << 20];
static int quiet; // zero, and of this file
static volatile int last = 1999;
static _Alignas(4096) char aligned[3] = {1, 2, 3};
static _Alignas(64) int ordered = 5;
_Alignas(16384) char aligned_zeros[5];
static _Alignas(128) const char line[] = "line";

__attribute__((weak)) int weak_here(void) {
    return 1;
}

__attribute__((weak)) int first_of_two(void) {
    return 100;
}

__attribute__((weak, visibility("hidden"))) int hidden_twice = 31;

// Sections of names of their own, one in a segment of its own.
#ifdef __APPLE__
#define IN(place) __attribute__((section(place)))
#else
#define IN(place)
#endif
IN("__DATA,__mine") int in_mine = 61;
IN("__DATA,__mine") int *to_mine = &in_mine;
IN("__OWN,__place") struct { char text[24]; long number; } in_own = {"a segment of its own", 62};

static const char *title_here(void) {
    return "the first file";
}

static int is_aligned(const void *place, unsigned long unit) {
    return (unsigned long)place % unit == 0;
}

int main(void) {
    fill();
    printf("%d %d %d\n", shared, room[99], room[last]);
    printf("%ld %ld\n", table[0], table[299]);
    int sum = 0;
    for (int number = 0; number < 50000; number++)
        sum += zeros[number];
    zeros[49999] = 9;
    printf("%d %d %d\n", sum, zeros[49999], quiet++);
    printf("%d %d %d\n", weak_here(), first_of_two(), of_the_other());
    printf("%d\n", hidden_twice);
    printf("%s, %s\n", title_here(), title());
    printf("%d %d %d %d\n", is_aligned(aligned, 4096), is_aligned(&ordered, 64), is_aligned(aligned_zeros, 16384), is_aligned(line, 128));
    printf("%d %d %d %s\n", aligned[0] + aligned[1] + aligned[2], ordered, aligned_zeros[4], line);
    memset(aligned, 7, 3);
    printf("%d\n", aligned[0] + aligned[1] + aligned[2]);
    many_zeros[last * 20000] = 8;
    printf("%d %d\n", many_zeros[last * 20000], many_zeros[last * 20000 + 1]);
    (*to_mine)++;
    in_own.number += in_mine;
    printf("%d %s %ld\n", in_mine, in_own.text, in_own.number);
    ++*counter();
    ++*counter();
    printf("%d\n", *counter());
    printf("%.3f %g\n", area(2.5), area(0.5) * 1e10);
    return shared;
}
