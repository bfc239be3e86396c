// Classes: tables of virtual functions, templates and inline variables that both files have, objects made before the program and destroyed
// behind it, and pointers to members.
#include "parts.h"

extern "C" int printf(const char *format, ...);

struct Noisy {
    const char *name;
    explicit Noisy(const char *name) : name(name) { printf("%s comes\n", name); }
    ~Noisy() { printf("%s goes\n", name); }
};
static Noisy early("early");

struct Pair {
    int first, second;
    int sum() const { return first + second; }
    virtual int product() const { return first * second; }
};
static int (Pair::*const ways[])() const = {&Pair::sum, &Pair::product};

static Noisy &lazy() {
    static Noisy noisy("lazy");
    return noisy;
}

int main() {
    for (int kind = 0; kind < 3; kind++) {
        Part *part = made(kind);
        printf("%s of %d, %s\n", part->name(), part->size(), where(kind));
        delete part;
    }
    Counter<int>::next();
    int here = Counter<int>::next(), there = counted_there();
    long other = Counter<long>::next();
    printf("%d %d %ld\n", here, there, other);
    everywhere++;
    printf("%d %d\n", everywhere, same_place(&everywhere));
    Pair pair;
    pair.first = 6;
    pair.second = 7;
    printf("%d %d\n", (pair.*ways[0])(), (pair.*ways[1])());
    printf("%s\n", lazy().name);
    lazy();
    return here + there;
}
