/* Judges standard input in pieces. If it is refused, prints the line of `wmod check`, the section and the member of the
 * byte that decided, what this byte begins in a later version of the standard, what the refusal means, and what to do.
 *
 *   cc explain.c $(pkg-config --cflags --libs wmod) -o explain
 */
#include "wmod.h"
#include <stdio.h>

static uint8_t piece[65536];

static void say_refusal(wmod_validator *v, const wmod_answer *answer) {
  char name[32], text[WMOD_EXPLAIN_ROOM];
  struct wmod_place place;
  wmod_why_name(answer->why, name, sizeof name);
  wmod_place(v, &place);
  printf("refused at %lu: %s\n", (unsigned long)answer->at, name);
  if (place.section != WMOD_NONE) {
    printf("in section %lu", (unsigned long)place.section);
    if (place.item != WMOD_NONE) {
      printf(", member %lu", (unsigned long)place.item);
    }
    puts("");
  }
  if (wmod_hint(answer->why, &place, text, sizeof text) > 0) {
    puts(text);
  }
  wmod_explain(answer->why, text, sizeof text);
  puts(text);
}

int main(void) {
  wmod_validator v = WMOD_VALIDATOR_EMPTY;
  wmod_answer answer;
  size_t n;
  if (wmod_begin(&v, WMOD_PROFILE_1, WMOD_LIMIT_DEFAULT) != WMOD_VALID) {
    return 4;
  }
  while ((n = fread(piece, 1, sizeof piece, stdin)) > 0 && wmod_feed(&v, piece, n) == WMOD_VALID) {
  }
  wmod_finish(&v, &answer);
  if (ferror(stdin)) {
    fputs("explain: standard input cannot be read\n", stderr);
    answer.status = 3;
  } else if (answer.status == WMOD_VALID) {
    puts("valid");
  } else if (answer.status == WMOD_REFUSED) {
    say_refusal(&v, &answer);
  }
  wmod_end(&v);
  return (int)answer.status;
}
