// An exception that is thrown in one function and caught in another. The program ends with status 0.
static int half(int number) {
    if (number % 2 != 0) {
        throw number;
    }
    return number / 2;
}

int main(int count, char **) {
    try {
        return half(count * 2 + 1);
    } catch (int odd) {
        return odd - (count * 2 + 1);
    }
}
