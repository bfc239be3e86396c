// A library that shows two functions of three.
static int calls;

int count_calls(void) {
    return ++calls;
}

int shape_square(int side) {
    return count_calls() > 0 ? side * side : 0;
}

int shape_cube(int side) {
    return shape_square(side) * side;
}
