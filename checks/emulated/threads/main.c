// Thread-local variables with and without a first value, in two files, of this thread and of another one.
#include "locals.h"

typedef void *pthread_t_;
int printf(const char *format, ...);
int pthread_create(pthread_t_ *, const void *, void *(*)(void *), void *);
int pthread_join(pthread_t_, void **);

static _Thread_local long zero;
static _Thread_local short seven = 7;
static _Thread_local _Alignas(64) char line[100];
static int plain = 50;
_Thread_local int *here = &plain;

static void *other(void *argument) {
    printf("in a thread: %d %ld %d %s %s\n", calls, zero, seven, letters, (const char *)argument);
    zero = 99;
    seven++;
    letters[0] = 'Z';
    *here += 1;
    note(5);
    printf("then: %d %ld %d %s\n", calls, zero, seven, letters);
    return (void *)&plain;
}

int main(void) {
    printf("%d %ld %d %s %s\n", calls, zero, seven, letters, word());
    note(1);
    note(2);
    zero = 5;
    seven = 70;
    letters[1] = 'B';
    pthread_t_ thread = 0;
    void *result = 0;
    pthread_create(&thread, 0, other, "told");
    pthread_join(thread, &result);
    printf("%d %ld %d %s %d %d\n", calls, zero, seven, letters, *here, *(int *)result);
    printf("%d %d\n", aligned_by(16), (unsigned long)(line + zero - 5) % 64 == 0 && !line[99]);
    return calls;
}
