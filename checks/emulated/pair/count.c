// The library: what its export list has is seen by others.
#include "count.h"

int printf(const char *format, ...);

int numbers[6] = {1, 2, 3, 4, 5, 6};
const char *const library_name = "a library that counts";
_Thread_local int visits = 10;
static int *all[] = {numbers, numbers + 1, numbers + 2, &numbers[3], &numbers[4], &numbers[5]};

__attribute__((constructor)) static void begin(void) {
    printf("the library begins, with %d\n", base(1));
}

int step(int number) {
    return number + 1;
}

int count(const char *text) {
    visits++;
    printf("counting %s\n", text);
    return visits;
}

int apply(int (*action)(int), int number) {
    return step(action(number));
}

int total(void) {
    int sum = 0;
    for (int number = 0; number < 6; number++)
        sum += *all[number];
    return base(sum);
}
