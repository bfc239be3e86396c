// Who throws, and frames with many kept registers between.
#include "shapes.h"

extern "C" int printf(const char *format, ...);

Fault::Fault(int number) : number(number) {}
Fault::Fault(const Fault &other) : number(other.number) {}
Fault::~Fault() {
    printf("a fault of %d goes\n", number);
}
const char *Fault::text() const {
    return "a fault";
}
Deep::Deep(int number) : Fault(number) {}
const char *Deep::text() const {
    return "a deep fault";
}
Trace::Trace(const char *name) : name(name) {}
Trace::~Trace() {
    printf("%s is left\n", name);
}

int checked(int number) {
    Trace trace("checked");
    switch (number) {
    case 1: throw 11;
    case 2: throw Fault(12);
    case 3: throw Deep(13);
    case 4: throw Fault(24);
    case 5: throw "a text";
    case 6: throw Odd{16};
    default: return number + 7;
    }
}

int through(int (*action)(int), int number) {
    Trace trace("through");
    volatile double held = number * 1.5;
    int a = number + 1, b = number * 3, c = number ^ 5, d = number - 9, e = number << 2, f = number | 8;
    double x = held + 1, y = held * 2;
    int got = between(action, number);
    int again = action(0);
    printf("%d %d %d %d %d %d %g %g\n", a, b, c, d, e, f, x, y);
    return got + again + a + b + c + d + e + f;
}
