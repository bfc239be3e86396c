// A frame of C with something to clean up when an exception passes: its personality function is another one.
int printf(const char *format, ...);

static void forget(const int *kept) {
    printf("%d is forgotten\n", *kept);
}

int between(int (*action)(int), int number) {
    __attribute__((cleanup(forget))) int kept = number * 100;
    return action(number) + kept;
}
