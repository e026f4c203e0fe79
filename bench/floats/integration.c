// Numerical integration, through a table of functions.
typedef double (*Function)(double);

static double square(double x) { return x * x; }

static double root(double x) { return __builtin_sqrt(__builtin_fabs(x)); }

static double sine(double x) {
  double term = x, sum = x;
  for (int i = 2; i < 40; i += 2) {
    term *= -x * x / (i * (i + 1));
    sum += term;
  }
  return sum;
}

static const Function functions[] = {square, root, sine};

double simpson(unsigned which, double from, double to, int steps) {
  Function f = functions[which % 3];
  double step = (to - from) / (2.0 * steps), sum = f(from) + f(to);
  for (int i = 1; i < 2 * steps; i++) sum += f(from + i * step) * (i % 2 ? 4 : 2);
  return sum * step / 3;
}

float trapezoid(unsigned which, float from, float to, long long steps) {
  Function f = functions[which % 3];
  float step = (to - from) / steps, sum = (float)(f(from) + f(to)) / 2;
  for (long long i = 1; i < steps; i++) sum += (float)f(from + i * step);
  return sum * step;
}
