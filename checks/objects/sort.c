// Sorting numbers: recursion, static data, and a call by a pointer.
typedef int (*less_fn)(int, int);

static int numbers[] = {5, 3, 9, -1, 7, 0, 2};
static int calls;

static int less(int a, int b) {
    calls++;
    return a < b;
}

static void sort(int *first, int *last, less_fn is_less) {
    if (last - first < 2)
        return;
    int *middle = first;
    for (int *at = first + 1; at < last; at++) {
        if (is_less(*at, *first)) {
            int kept = *++middle;
            *middle = *at;
            *at = kept;
        }
    }
    int kept = *middle;
    *middle = *first;
    *first = kept;
    sort(first, middle, is_less);
    sort(middle + 1, last, is_less);
}

int main(void) {
    sort(numbers, numbers + sizeof numbers / sizeof *numbers, less);
    return calls == 0;
}
