// Exceptions: of numbers and of classes, caught by their own type, by a base, by all; thrown through frames with something to clean up, and
// thrown again.
#include "shapes.h"

extern "C" int printf(const char *format, ...);

static int tried(int number) {
    Trace trace("tried");
    try {
        return through(checked, number);
    } catch (int thrown) {
        printf("caught the number %d\n", thrown);
        return -1;
    } catch (const Odd &thrown) {
        printf("caught an odd one: %d\n", thrown.number);
        return -4;
    } catch (const Deep &thrown) {
        printf("caught a deep one: %s %d\n", thrown.text(), thrown.number);
        return -2;
    } catch (const Fault &thrown) {
        printf("caught: %s %d\n", thrown.text(), thrown.number);
        if (thrown.number > 20)
            throw;
        return -3;
    }
}

int main() {
    int sum = 0;
    for (int number = 0; number < 7; number++) {
        try {
            int got = tried(number);
            printf("%d gives %d\n", number, got);
            sum += got;
        } catch (...) {
            printf("%d passes\n", number);
            sum += 100;
        }
    }
    printf("%d\n", sum);
    return sum;
}
