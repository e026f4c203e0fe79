// Conversions between floats and integers, both ways and of each width.
int whole(double x) { return (int)x; }
unsigned counted(float x) { return (unsigned)x; }
long long wide(double x) { return (long long)x; }
unsigned long long widest(float x) { return (unsigned long long)x; }
double back(long long n) { return (double)n; }
float less(unsigned n) { return (float)n; }

double mean(const float *numbers, int count) {
    double sum = 0;
    for (int i = 0; i < count; i++)
        sum += numbers[i];
    return count ? sum / count : 0;
}

double root(double x) { return __builtin_sqrt(x) + __builtin_fabs(x) - __builtin_floor(x); }
