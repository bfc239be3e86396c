// The other file.
int printf(const char *format, ...);

int started;
static const char *const marks[] = {"*", "**", "***", "****"};

int note_start(const char *name) {
    return printf("%s %s\n", marks[started++], name);
}

__attribute__((constructor)) static void more(void) {
    note_start("the second file");
}
