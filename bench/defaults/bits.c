// Arithmetic on 32 and 64 bits: counts, rotations, division and comparison.
unsigned mixed(unsigned h, unsigned k) {
    k *= 0xcc9e2d51u;
    k = (k << 15) | (k >> 17);
    h ^= k * 0x1b873593u;
    h = (h << 13) | (h >> 19);
    return h * 5 + 0xe6546b64u;
}

int counts(unsigned n, unsigned long long w) { return __builtin_popcount(n) + __builtin_clz(n | 1) + __builtin_ctzll(w | 1); }

unsigned long long power(unsigned long long base, unsigned long long e, unsigned long long m) {
    unsigned long long result = 1;
    for (base %= m; e; e >>= 1, base = base * base % m)
        if (e & 1)
            result = result * base % m;
    return result;
}

int between(long long n, long long low, long long high) { return low <= n && n < high; }
