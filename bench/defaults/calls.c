// Calls through a table of functions, and a choice among them.
static int twice(int n) { return 2 * n; }
static int square(int n) { return n * n; }
static int next(int n) { return n + 1; }

typedef int (*step)(int);

static const step STEPS[] = {twice, square, next};

int apply(int which, int n) { return STEPS[which % 3](n); }

int all(int n) {
    for (int i = 0; i < 3; i++)
        n = STEPS[i](n);
    return n;
}

int chosen(step f, int n) { return f ? f(n) : -1; }
