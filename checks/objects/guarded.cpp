// Exceptions that pass through functions with something to destroy, one that is caught, and an object that is made before `main`.
extern "C" void passed(int);

struct Guard {
    int number;
    explicit Guard(int given) : number(given) {}
    ~Guard() { passed(number); }
};

static volatile int given = 7;

struct Once {
    int made;
    Once() : made(given) {}
};

static Once once;
thread_local int depth = 1;

__attribute__((noinline)) static int half(int number) {
    Guard guard(number);
    depth++;
    if (number % 2 != 0) {
        throw number;
    }
    return number / 2 + once.made;
}

__attribute__((noinline)) static int both(int first, int second) {
    Guard outer(first);
    return half(first) + half(second);
}

void passed(int number) {
    depth += number & 1;
}

int main(int count, char **) {
    try {
        return both(count * 2, count * 2 + 1);
    } catch (int odd) {
        return odd - (count * 2 + 1);
    }
}
