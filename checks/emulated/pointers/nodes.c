// The other file: nodes, tables, a choice by a table of jumps, and a difference of two places in a section of another kind.
#include "nodes.h"

struct node second = {"second", &third, negated, &numbers[0]};
struct node third = {"third", &first, chosen, &numbers[7]};
const int numbers[8] = {3, 1, 4, 1, 5, 9, 2, 6};
const char *const names[4] = {"north", "east", "south", "west"};
int (*const actions[3])(int) = {negated, chosen, twice};

#define FOUR(n) &numbers[n], &numbers[(n) ^ 1], &numbers[(n) ^ 2], &numbers[(n) ^ 7]
#define TWENTY FOUR(0), FOUR(1), FOUR(2), FOUR(3), FOUR(5)
#define HUNDRED TWENTY, TWENTY, TWENTY, TWENTY, TWENTY
#define THOUSAND HUNDRED, HUNDRED, HUNDRED, HUNDRED, HUNDRED, HUNDRED, HUNDRED, HUNDRED, HUNDRED, HUNDRED
const int *far_places[5000] = {THOUSAND, THOUSAND, THOUSAND, THOUSAND, THOUSAND};

int twice(int number) {
    return number * 2;
}

int negated(int number) {
    return -number;
}

int puts(const char *);

// Each case does something else, so that a table of jumps is made.
int chosen(int number) {
    switch (number) {
    case 0: return twice(11);
    case 1: return puts("one") >= 0;
    case 2: return numbers[3] + 20;
    case 3: return negated(4);
    case 4: return (int)(names[1][0]);
    case 5: return actions[2](50);
    case 6: return *first.part;
    case 7: return second.next == &third;
    case 8: return 88;
    case 10: return 100;
    default: return -1;
    }
}

// Differences of two places, with an addend too, and across files; the distance to a slot; a value that doesn't slide; a pointer into a
// section, by a label that has no symbol.
#ifdef __APPLE__
__asm__(".section __TEXT,__text,regular,pure_instructions\n"
        ".globl _near_code, _far_code\n.p2align 2\n_near_code:\n ret\n nop\n nop\n_far_code:\n ret\n"
        ".section __TEXT,__const\n"
        ".globl _distance, _long_distance, _to_first, _to_slot\n.p2align 3\n"
        "_long_distance:\n .quad _far_code - _near_code + 100\n"
        "_distance:\n .long _far_code - _near_code\n"
        "_to_first:\n .long _first - _to_first\n"
        "_to_slot:\n .long _third@GOT - .\n"
        ".globl _plain\n_plain = 0x1234\n"
        ".data\n.p2align 3\n"
        "Llocal:\n .asciz \"xlocal\"\n .p2align 3\n"
        ".globl _plain_value, _local_text\n"
        "_plain_value:\n .quad _plain + 1\n"
        "_local_text:\n .quad Llocal + 1\n");
extern const int to_first, to_slot;
struct node *by_distance(void) {
    return (struct node *)((char *)&to_first + to_first);
}
struct node *by_slot(void) {
    return *(struct node **)((char *)&to_slot + to_slot);
}
#else
const int distance = 12;
const long long_distance = 112;
long plain_value = 0x1235;
const char *local_text = "local";
struct node *by_distance(void) {
    return &first;
}
struct node *by_slot(void) {
    return &third;
}
#endif
