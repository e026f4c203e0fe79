// Choices, loops and recursion; narrow integers, and strings in memory.
static const char *const WORDS[] = {"zero", "one", "two", "three", "four"};

const char *word(unsigned n) { return n < 5 ? WORDS[n] : "many"; }

int days(int month, int is_leap) {
    switch (month) {
    case 2: return is_leap ? 29 : 28;
    case 4: case 6: case 9: case 11: return 30;
    case 1: case 3: case 5: case 7: case 8: case 10: case 12: return 31;
    default: return 0;
    }
}

unsigned fibonacci(unsigned n) { return n < 2 ? n : fibonacci(n - 1) + fibonacci(n - 2); }

int narrow(int n) { return (signed char)n + (short)(n >> 3); }
long long longer(signed char c, short s, int i) { return (long long)c * s + i; }

int parse(const char *text) {
    int sign = 1, n = 0;
    if (*text == '-') {
        sign = -1;
        text++;
    }
    while (*text >= '0' && *text <= '9')
        n = 10 * n + (*text++ - '0');
    return sign * n;
}
