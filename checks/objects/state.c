// State: zero-filled and common data, thread-local variables, weak and hidden symbols, a constructor, and floats.
int shared[1024];
static _Thread_local int depth = 3;
_Thread_local long passes;
__attribute__((weak)) int limit = 64;
__attribute__((visibility("hidden"))) double scale = 2.5;

__attribute__((constructor)) static void begin(void) {
    passes = 1;
}

double area(double side) {
    return side * side * scale + 0.125;
}

int descend(int from) {
    if (from <= 0 || depth > limit)
        return depth;
    depth++;
    passes++;
    shared[from & 1023] += depth;
    return descend(from - 1);
}

int main(void) {
    return area((double)descend(5)) < 1.0;
}
