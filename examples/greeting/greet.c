int printf(const char *format, ...);

int greet(const char *name) {
    return printf("Hello, %s!\n", name);
}
