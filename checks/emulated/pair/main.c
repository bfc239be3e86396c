// A program that calls a library, uses its variables, and is called by it.
#include "count.h"

int printf(const char *format, ...);

int *middle = &numbers[3];
int (*counted)(const char *) = count;
int *behind = numbers + 6;
int *before = numbers - 1000;

static int cube(int number) {
    return number * number * number;
}

// The library has a hidden function of this name.
int step(int number) {
    return number + 1000;
}

int main(void) {
    printf("%s\n", library_name);
    int one = count("one"), two = counted("two");
    printf("%d %d\n", one, two);
    printf("%d %d %d %d\n", *middle, middle[-3], behind[-1], before[1001]);
    *middle = 70;
    printf("%d\n", total());
    printf("%d %d\n", apply(cube, 3), apply(step, 1));
    int five = base(5);
    printf("%d %d\n", five, base_calls());
    printf("%d\n", visits);
    visits = 20;
    int three = count("three");
    printf("%d %d\n", three, visits);
    printf("%d\n", counted == count);
    return total() % 100;
}
