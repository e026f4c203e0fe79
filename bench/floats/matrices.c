// Matrices: products, extremes, and conversions between floats and integers.
#define SIZE 64
double left[SIZE][SIZE], right[SIZE][SIZE], product[SIZE][SIZE];
float small[SIZE][SIZE];

void fill(unsigned seed) {
  for (int i = 0; i < SIZE; i++)
    for (int j = 0; j < SIZE; j++) {
      seed = seed * 1664525u + 1013904223u;
      left[i][j] = seed / 4294967296.0;
      right[i][j] = (int)seed * 0x1p-31;
    }
}

void multiply(int size) {
  for (int i = 0; i < size; i++)
    for (int j = 0; j < size; j++) {
      double sum = 0;
      for (int k = 0; k < size; k++) sum += left[i][k] * right[k][j];
      product[i][j] = sum;
      small[i][j] = (float)sum;
    }
}

float greatest(int size) {
  float most = -__builtin_inff();
  for (int i = 0; i < size; i++)
    for (int j = 0; j < size; j++)
      if (small[i][j] > most) most = small[i][j];
  return most;
}

double trace(int size) {
  double sum = -0.0;
  for (int i = 0; i < size; i++) sum += product[i][i];
  return __builtin_copysign(sum, product[0][0]);
}
