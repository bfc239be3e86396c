// Text: literals, a table of pointers, a switch, and calls of a library.
extern int printf(const char *format, ...);
extern unsigned long strlen(const char *text);

static const char *const names[] = {"zero", "one", "two", "three"};

const char *name_of(int number) {
    return number >= 0 && number < 4 ? names[number] : "many";
}

int weight_of(int letter) {
    switch (letter) {
    case 'a': return 1;
    case 'b': return 3;
    case 'c': return 3;
    case 'd': return 2;
    case 'e': return 1;
    case 'f': return 4;
    default: return 0;
    }
}

int main(int count, char **words) {
    int sum = 0;
    for (int i = 0; i < count; i++)
        for (unsigned long k = 0; k < strlen(words[i]); k++)
            sum += weight_of(words[i][k]);
    return printf("%s: %d\n", name_of(count), sum) < 0;
}
