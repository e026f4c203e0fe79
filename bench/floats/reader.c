// Reads decimal numbers, and takes the bits of a float.
static double power(double base, int exponent) {
  double result = 1;
  for (unsigned n = exponent < 0 ? -exponent : exponent; n; n /= 2) {
    if (n % 2) result *= base;
    base *= base;
  }
  return exponent < 0 ? 1 / result : result;
}

double read_number(const char *text) {
  int negative = *text == '-', places = 0, exponent = 0, below = 0;
  double value = 0;
  if (*text == '-' || *text == '+') text++;
  if (*text == 'n') return __builtin_nan("0x123");
  if (*text == 'i') return negative ? -__builtin_inf() : __builtin_inf();
  for (; (*text >= '0' && *text <= '9') || *text == '.'; text++) {
    if (*text == '.') {
      places = 1;
      continue;
    }
    value = value * 10 + (*text - '0');
    exponent -= places;
  }
  if (*text == 'e') {
    int shift = 0;
    below = *++text == '-';
    for (text += below; *text >= '0' && *text <= '9'; text++) shift = shift * 10 + (*text - '0');
    exponent += below ? -shift : shift;
  }
  value *= power(10, exponent);
  return negative ? -value : value;
}

unsigned long long bits(const char *text) {
  union {
    double value;
    unsigned long long bits;
  } both = {read_number(text)};
  return both.bits;
}

int rounded(const char *text) {
  double value = __builtin_floor(read_number(text) + 0.5);
  return value >= -2147483648.0 && value < 2147483648.0 ? (int)value : 0;
}

float read_float(const char *text) { return read_number(text); }
