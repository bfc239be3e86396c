// Functions and a variable of the system: by calls, by pointers in data, in tables, and as what sorts.
#include <stddef.h>

#ifdef __APPLE__
typedef struct file FILE;
extern FILE *__stdoutp;
#define stdout __stdoutp
int printf(const char *format, ...);
int puts(const char *);
int putchar(int);
int fputs(const char *, FILE *);
size_t fwrite(const void *, size_t, size_t, FILE *);
int snprintf(char *, size_t, const char *, ...);
long write(int, const void *, size_t);
void qsort(void *, size_t, size_t, int (*)(const void *, const void *));
void *malloc(size_t);
void *calloc(size_t, size_t);
void *realloc(void *, size_t);
void free(void *);
void *memcpy(void *, const void *, size_t);
void *memmove(void *, const void *, size_t);
void *memset(void *, int, size_t);
size_t strlen(const char *);
int strcmp(const char *, const char *);
FILE **stream = &__stdoutp;
#define opened() (*stream)
#else
#include <stdio.h>
#include <stdlib.h>
#include <string.h>
#include <unistd.h>
#define opened() stdout
#endif

struct way {
    const char *name;
    int (*say)(const char *);
} ways[] = {{"puts", puts}, {"ours", 0}};
void *(*reserve)(size_t) = malloc;
void (*release)(void *) = free;
void *(*cleared)(size_t, size_t) = calloc;
struct {
    void *(*copy)(void *, const void *, size_t), *(*move)(void *, const void *, size_t), *(*fill)(void *, int, size_t);
} bytes = {memcpy, memmove, memset};
static size_t (*volatile measure)(const char *) = strlen;
static const char *words[] = {"pear", "apple", "fig", "quince", "apple pie", "date"};

static int ours(const char *text) {
    return printf("<%s>\n", text);
}

static int by_name(const void *one, const void *other) {
    return strcmp(*(const char *const *)one, *(const char *const *)other);
}

static int by_length(const void *one, const void *other) {
    return (int)measure(*(const char *const *)one) - (int)measure(*(const char *const *)other);
}

static int (*const orders[])(const void *, const void *) = {by_name, by_length};

int main(void) {
    ways[1].say = ours;
    for (int number = 0; number < 2; number++)
        ways[number].say(ways[number].name);
    fputs("by the stream's variable\n", stdout);
    fputs("by a pointer to it\n", opened());
    for (int number = 0; number < 2; number++) {
        qsort(words, 6, sizeof *words, orders[number]);
        for (int place = 0; place < 6; place++)
            printf("%s%s", words[place], place == 5 ? "\n" : ", ");
    }
    char *place = reserve(10);
    bytes.copy(place, "ten bytes", 10);
    place = realloc(place, 40);
    bytes.move(place + 4, place, 10);
    bytes.fill(place + 1, '-', 3);
    printf("%s %zu\n", place, strlen(place));
    release(place);
    int *counts = cleared(4, sizeof *counts);
    counts[2] = 6;
    printf("%d %d\n", counts[2], counts[3]);
    free(counts);
    char line[24];
    int length = snprintf(line, sizeof line, "%5d|%-4s|%04x|%c", -42, "ab", 0xbeef, 'z');
    fwrite(line, 1, (size_t)length, stdout);
    putchar('\n');
#ifndef __APPLE__
    fflush(stdout);
#endif
    write(1, "written\n", 8);
    return measure == strlen ? 0 : 1;
}
