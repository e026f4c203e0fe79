// A program of the C library: formatted output of arguments.
#include <stdio.h>

int main(int argc, char **argv) {
    printf("%d arguments\n", argc);
    for (int i = 0; i < argc; i++)
        printf("%s %5.2f\n", argv[i], i / 3.0);
    return 0;
}
