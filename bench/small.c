// Small functions such as plug-ins have. Lines of dashes divide them into parts. stock.py makes each small module of
// the benchmark from a few parts.
unsigned adler32_of(const unsigned char *s, unsigned n) {
  unsigned a = 1, b = 0;
  for (unsigned i = 0; i < n; i++) { a = (a + s[i]) % 65521; b = (b + a) % 65521; }
  return b << 16 | a;
}
// ---
unsigned hash_fnv1a(const unsigned char *s, unsigned n) {
  unsigned h = 2166136261u;
  while (n--) h = (h ^ *s++) * 16777619u;
  return h;
}
// ---
unsigned long long hash_murmur64(const unsigned long long *s, unsigned n, unsigned long long seed) {
  unsigned long long h = seed ^ n * 0xc6a4a7935bd1e995ull;
  for (unsigned i = 0; i < n; i++) {
    unsigned long long k = s[i] * 0xc6a4a7935bd1e995ull;
    k ^= k >> 47;
    h = (h ^ k * 0xc6a4a7935bd1e995ull) * 0xc6a4a7935bd1e995ull;
  }
  return h ^ h >> 47;
}
// ---
static unsigned table_of_crc[256];
void crc32_prepare(void) {
  for (unsigned i = 0; i < 256; i++) {
    unsigned c = i;
    for (int k = 0; k < 8; k++) c = c & 1 ? 0xedb88320u ^ c >> 1 : c >> 1;
    table_of_crc[i] = c;
  }
}
unsigned crc32_update(unsigned c, const unsigned char *s, unsigned n) {
  c = ~c;
  while (n--) c = table_of_crc[(c ^ *s++) & 255] ^ c >> 8;
  return ~c;
}
// ---
unsigned length_of_text(const char *s) { const char *p = s; while (*p) p++; return p - s; }
int compare_texts(const char *a, const char *b) {
  while (*a && *a == *b) a++, b++;
  return *(unsigned char *)a - *(unsigned char *)b;
}
// ---
void *copy_bytes(void *to, const void *from, unsigned n) {
  char *d = to; const char *s = from;
  if (d < s) while (n--) *d++ = *s++; else while (n--) d[n] = s[n];
  return to;
}
// ---
int parse_decimal(const char *s, int *out) {
  int sign = 1, value = 0, any = 0;
  while (*s == ' ' || *s == '\t') s++;
  if (*s == '-') sign = -1, s++; else if (*s == '+') s++;
  while (*s >= '0' && *s <= '9') { value = value * 10 + (*s++ - '0'); any = 1; }
  *out = sign * value;
  return any;
}
// ---
unsigned format_decimal(int value, char *out) {
  char digits[12]; unsigned n = 0, k = 0;
  unsigned left = value < 0 ? 0u - value : value;
  do digits[n++] = '0' + left % 10; while (left /= 10);
  if (value < 0) out[k++] = '-';
  while (n) out[k++] = digits[--n];
  return k;
}
// ---
static const char letters64[] = "ABCDEFGHIJKLMNOPQRSTUVWXYZabcdefghijklmnopqrstuvwxyz0123456789+/";
unsigned encode_base64(const unsigned char *s, unsigned n, char *out) {
  char *p = out;
  for (unsigned i = 0; i < n; i += 3) {
    unsigned v = s[i] << 16 | (i + 1 < n ? s[i + 1] << 8 : 0) | (i + 2 < n ? s[i + 2] : 0);
    *p++ = letters64[v >> 18 & 63]; *p++ = letters64[v >> 12 & 63];
    *p++ = i + 1 < n ? letters64[v >> 6 & 63] : '='; *p++ = i + 2 < n ? letters64[v & 63] : '=';
  }
  return p - out;
}
// ---
int decode_utf8(const unsigned char *s, unsigned n, unsigned *out) {
  if (!n) return 0;
  unsigned c = s[0], more = c < 0x80 ? 0 : c < 0xe0 ? 1 : c < 0xf0 ? 2 : 3;
  if (c >= 0x80 && c < 0xc2 || c > 0xf4 || more >= n) return -1;
  unsigned v = more == 0 ? c : c & (0x3f >> more);
  for (unsigned i = 1; i <= more; i++) { if ((s[i] & 0xc0) != 0x80) return -1; v = v << 6 | (s[i] & 0x3f); }
  *out = v;
  return more + 1;
}
// ---
static void swap_ints(int *a, int *b) { int t = *a; *a = *b; *b = t; }
void sort_ints(int *a, int n) {
  for (int i = n / 2 - 1; i >= 0; i--)
    for (int k = i, c; (c = 2 * k + 1) < n; k = c) {
      if (c + 1 < n && a[c] < a[c + 1]) c++;
      if (a[k] >= a[c]) break;
      swap_ints(a + k, a + c);
    }
  for (int e = n - 1; e > 0; e--) {
    swap_ints(a, a + e);
    for (int k = 0, c; (c = 2 * k + 1) < e; k = c) {
      if (c + 1 < e && a[c] < a[c + 1]) c++;
      if (a[k] >= a[c]) break;
      swap_ints(a + k, a + c);
    }
  }
}
// ---
int find_sorted(const int *a, int n, int key) {
  int low = 0, high = n;
  while (low < high) { int mid = low + (high - low) / 2; if (a[mid] < key) low = mid + 1; else high = mid; }
  return low < n && a[low] == key ? low : -1;
}
// ---
unsigned next_random(unsigned long long *state) {
  unsigned long long x = *state;
  *state = x * 6364136223846793005ull + 1442695040888963407ull;
  unsigned rotated = (unsigned)((x >> 18 ^ x) >> 27), by = x >> 59;
  return rotated >> by | rotated << (-by & 31);
}
// ---
double root_of(double x) { double r = x > 1 ? x : 1; for (int i = 0; i < 40; i++) r = (r + x / r) / 2; return r; }
double length_of_vector(const double *v, int n) { double s = 0; for (int i = 0; i < n; i++) s += v[i] * v[i]; return root_of(s); }
// ---
void multiply_matrices(const float *a, const float *b, float *c, int n) {
  for (int i = 0; i < n; i++)
    for (int j = 0; j < n; j++) {
      float s = 0;
      for (int k = 0; k < n; k++) s += a[i * n + k] * b[k * n + j];
      c[i * n + j] = s;
    }
}
// ---
double price_with_tax(double net, int kind) {
  switch (kind) { case 0: return net; case 1: return net * 1.07; case 2: return net * 1.19; case 3: return net * 1.25; default: return -1; }
}
// ---
struct event { int kind, x, y; unsigned time; };
int handle_event(struct event *e, int *state) {
  switch (e->kind) {
    case 1: state[0] = e->x; state[1] = e->y; return 1;
    case 2: state[2]++; return state[2] > 10;
    case 3: if (e->time - state[3] < 250) return 2; state[3] = e->time; return 0;
    case 4: state[4] = !state[4]; return state[4];
    case 5: case 6: return e->x < e->y ? -1 : e->x > e->y;
    case 9: state[2] = 0; state[4] = 0; return 0;
    default: return -1;
  }
}
// ---
static int handler_add(int a, int b) { return a + b; }
static int handler_mul(int a, int b) { return a * b; }
static int handler_max(int a, int b) { return a > b ? a : b; }
static int (*const handlers[])(int, int) = {handler_add, handler_mul, handler_max};
int call_handler(unsigned which, int a, int b) { return which < 3 ? handlers[which](a, b) : 0; }
// ---
extern int host_read(char *to, int most);
extern void host_write(const char *from, int n);
static char buffer_of_host[512];
int copy_from_host(void) {
  int n, all = 0;
  while ((n = host_read(buffer_of_host, sizeof buffer_of_host)) > 0) {
    for (int i = 0; i < n; i++) if (buffer_of_host[i] >= 'a' && buffer_of_host[i] <= 'z') buffer_of_host[i] -= 32;
    host_write(buffer_of_host, n);
    all += n;
  }
  return all;
}
// ---
extern void host_log(int level, const char *text, int n);
static char heap[1 << 14]; static unsigned used;
void *take_memory(unsigned n) {
  n = (n + 15) & ~15u;
  if (used + n > sizeof heap) { host_log(3, "out of memory", 13); return 0; }
  void *p = heap + used; used += n;
  return p;
}
void give_memory(void) { used = 0; }
// ---
int run_length(const unsigned char *s, int n, unsigned char *out) {
  int k = 0;
  for (int i = 0; i < n;) {
    int j = i;
    while (j < n && s[j] == s[i] && j - i < 255) j++;
    out[k++] = j - i; out[k++] = s[i]; i = j;
  }
  return k;
}
// ---
unsigned long long power_modulo(unsigned long long b, unsigned long long e, unsigned long long m) {
  unsigned long long r = 1;
  for (b %= m; e; e >>= 1) { if (e & 1) r = r * b % m; b = b * b % m; }
  return r;
}
// ---
int is_balanced(const char *s) {
  int depth = 0;
  for (; *s; s++) { if (*s == '(') depth++; else if (*s == ')' && --depth < 0) return 0; }
  return depth == 0;
}
// ---
static unsigned fibonacci(unsigned n) { return n < 2 ? n : fibonacci(n - 1) + fibonacci(n - 2); }
unsigned count_calls(unsigned n) { return fibonacci(n) * 2 + 1; }
