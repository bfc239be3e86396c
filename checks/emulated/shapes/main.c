// A program for the library of examples/shapes.
int printf(const char *format, ...);
int shape_square(int side);
int shape_cube(int side);

int main(void) {
    printf("%d %d\n", shape_square(5), shape_cube(3));
    return 0;
}
