// Copies and fills of whole structures.
struct record {
    int key;
    char name[120];
    double value;
};

static struct record kept[4];

void keep(int i, const struct record *r) { kept[i & 3] = *r; }
void take(int i, struct record *r) { *r = kept[i & 3]; }
void clear(int i) { __builtin_memset(&kept[i & 3], 0, sizeof kept[0]); }
void move(char *to, const char *from, unsigned long count) { __builtin_memmove(to, from, count); }
struct record made(int key) {
    struct record r = {key, "made", 1.5};
    return r;
}
