int greet(const char *name);

int main(void) {
    return greet("world") > 0 ? 0 : 1;
}
