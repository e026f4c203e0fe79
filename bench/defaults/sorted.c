// A program of the C library: memory on request, comparison by a function, strings.
#include <stdlib.h>
#include <string.h>

static int by_text(const void *a, const void *b) { return strcmp(*(const char *const *)a, *(const char *const *)b); }

int main(int argc, char **argv) {
    char **words = malloc((argc + 1) * sizeof *words);
    if (!words)
        return 1;
    memcpy(words, argv, argc * sizeof *words);
    qsort(words, argc, sizeof *words, by_text);
    int length = argc ? (int)strlen(words[0]) : 0;
    free(words);
    return length > 100;
}
