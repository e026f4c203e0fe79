/* Judges standard input in pieces, and prints the line of `wmod check`. The first argument is the length of a piece.
 * If reading fails there is no answer, since the bytes before are not the whole input.
 *
 *   cc check.c $(pkg-config --cflags --libs wmod) -o check
 */
#include "wmod.h"
#include <stdio.h>
#include <stdlib.h>

static uint8_t piece[65536];

int main(int count, char **words) {
  wmod_validator v = WMOD_VALIDATOR_EMPTY;
  wmod_answer answer;
  char name[32];
  size_t most = count > 1 ? (size_t)strtoul(words[1], NULL, 10) : sizeof piece;
  size_t n;
  if (most == 0 || most > sizeof piece) {
    return 2;
  }
  if (wmod_begin(&v, WMOD_PROFILE_1, WMOD_LIMIT_DEFAULT) != WMOD_VALID) {
    return 4;
  }
  while ((n = fread(piece, 1, most, stdin)) > 0 && wmod_feed(&v, piece, n) == WMOD_VALID) {
  }
  wmod_finish(&v, &answer);
  wmod_end(&v);
  if (ferror(stdin)) {
    fputs("check: standard input cannot be read\n", stderr);
    return 3;
  }
  if (answer.status == WMOD_VALID) {
    puts("valid");
  } else if (answer.status == WMOD_REFUSED) {
    wmod_why_name(answer.why, name, sizeof name);
    printf("refused at %lu: %s\n", (unsigned long)answer.at, name);
  }
  return (int)answer.status;
}
