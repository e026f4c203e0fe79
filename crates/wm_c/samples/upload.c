/* Checks an upload while it arrives: reads standard input, a pipe or a socket, and stops at the first refusal.
 * The rest is then never read. Prints `valid`, or `refused at N: NAME`. The first argument, if there is one, is
 * the most bytes that an upload may have.
 *
 *   cc upload.c $(pkg-config --cflags --libs wmod) -o upload
 */
#include "wmod.h"
#include <errno.h>
#include <stdio.h>
#include <stdlib.h>
#include <unistd.h>

/* The limits for a stranger's module. */
static wmod_options policy(uint64_t most) {
  wmod_options options = WMOD_OPTIONS;
  options.max_bytes = most;
  options.functions = 10000;
  options.locals = 1000;
  options.depth = 500;
  return options;
}

/* Feeds what comes from `fd` until a piece is refused. Returns 0, or -1 if `fd` cannot be read. */
static int feed_from(int fd, wmod_validator *v) {
  uint8_t piece[16384];
  for (;;) {
    ssize_t n = read(fd, piece, sizeof piece);
    if (n > 0) {
      if (wmod_feed(v, piece, (size_t)n) != WMOD_VALID) {
        return 0; /* wmod_finish says why */
      }
    } else if (n == 0) {
      return 0;
    } else if (errno != EINTR) {
      return -1;
    }
  }
}

int main(int count, char **words) {
  wmod_options options = policy(count > 1 ? strtoul(words[1], NULL, 10) : 1000000);
  wmod_validator v = WMOD_VALIDATOR_EMPTY;
  wmod_answer answer;
  char name[32];
  int is_read;
  uint32_t status = wmod_begin_with(&v, &options);
  if (status != WMOD_VALID) {
    return (int)status;
  }
  is_read = feed_from(0, &v) == 0;
  wmod_finish(&v, &answer);
  wmod_end(&v);
  if (!is_read) {
    perror("upload");
    return 3;
  }
  if (answer.status == WMOD_VALID) {
    puts("valid");
  } else {
    wmod_why_name(answer.why, name, sizeof name);
    printf("refused at %lu: %s\n", (unsigned long)answer.at, name);
  }
  return (int)answer.status;
}
