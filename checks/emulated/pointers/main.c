// Pointers of all kinds lead where the sources say: to data, functions and strings of this file and of another, into the midst of
// arrays, in circles, and from tables of many pages.
#include "nodes.h"

int printf(const char *format, ...);
int puts(const char *);

static int plus_one(int number) {
    return number + 1;
}

struct node first = {"first", &second, twice, &numbers[5]};
static struct node *const starts[] = {&third, &first, &second};
static int (*mine)(int) = plus_one;
static int (*say)(const char *) = puts;
static int (**way)(const char *) = &say;
static const int *const behind_all = numbers + 8;
static struct node *to_the_second_next[] = {(struct node *)&first.next};

// A pointer at a multiple of 4 alone.
#pragma pack(push, 4)
static struct {
    int number;
    const char *text;
    int last;
    struct node *node;
} packed = {7, "packed", 9, &third};
#pragma pack(pop)

int main(void) {
    struct node *node = &first;
    for (int count = 0; count < 4; count++, node = node->next)
        printf("%s %d %d\n", node->name, node->act(count + 10), *node->part);
    for (int number = 0; number < 3; number++)
        printf("%s leads to %s\n", starts[number]->name, starts[number]->next->name);
    for (int number = 0; number < 4; number++)
        printf("%s%c", names[number], number == 3 ? '\n' : ' ');
    for (int number = 0; number < 3; number++)
        printf("%d%c", actions[number](number + 5), number == 2 ? '\n' : ' ');
    for (int number = 0; number < 12; number++)
        printf("%d ", chosen(number));
    printf("\n%d %d\n", mine(41), *(behind_all - 1));
    printf("%d %s %d %s\n", packed.number, packed.text, packed.last, packed.node->name);
    printf("%s\n", (*(struct node **)to_the_second_next[0])->name);
    long sum = 0;
    for (int number = 0; number < 5000; number++)
        sum += *far_places[number] * (number % 7 + 1);
    printf("%ld\n", sum);
    (*way)("said by a pointer to a pointer");
    printf("%d\n", say == puts);
    printf("the functions are %d bytes apart, and %ld and 100\n", distance, long_distance);
    printf("%s %s\n", by_distance()->name, by_slot()->name);
    printf("%ld %s\n", plain_value, local_text);
    return mine(actions[2](1)) & 0x7f;
}
