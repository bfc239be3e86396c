// Initializers run before the program, in the order of files, and functions given to `atexit` behind it, the last first.
int printf(const char *format, ...);
int puts(const char *);
int atexit(void (*)(void));
void exit(int);

extern int started;
int note_start(const char *);

__attribute__((constructor)) static void first(int count, char **words) {
    note_start(words[count - 1] && !words[count] ? "the first file, with its words" : "the first file");
}

__attribute__((constructor)) static void second(void) {
    note_start("the first file again");
}

static void last(void) {
    puts("the end");
}

static void last_but_one(void) {
    printf("the end of %d\n", started);
}

int main(void) {
    atexit(last);
    atexit(last_but_one);
    printf("the program, behind %d\n", started);
    exit(started + 40);
}
