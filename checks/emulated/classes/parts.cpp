// The other file.
#include "parts.h"

extern "C" int printf(const char *format, ...);

namespace {
struct Box : Part {
    int sides[3] = {2, 3, 4};
    int size() const override { return sides[0] * sides[1] * sides[2]; }
    const char *name() const override { return "a box"; }
};
struct Ball : Part {
    int size() const override { return everywhere * 10; }
};
struct Bag : Box {
    ~Bag() override { printf("the bag is emptied\n"); }
    int size() const override { return Box::size() + Counter<int>::count; }
};
struct Last {
    ~Last() { printf("the last file goes, at %d\n", everywhere); }
} last;
}

Part *made(int kind) {
    if (kind == 0)
        return new Box;
    if (kind == 1)
        return new Ball;
    return new Bag;
}

int counted_there() {
    return Counter<int>::next();
}

bool same_place(const int *place) {
    return place == &everywhere;
}
