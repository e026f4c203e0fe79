/* Converts standard input as the first argument says, `canon`, `show` or `build`, and prints the output of this action
 * of `wmod`.
 *
 *   cc convert.c $(pkg-config --cflags --libs wmod) -o convert
 */
#include "wmod.h"
#include <stdio.h>
#include <stdlib.h>
#include <string.h>

typedef uint32_t (*conversion)(const uint8_t *, size_t, const wmod_options *, uint8_t *, size_t, wmod_output *);

/* Returns all of standard input, or the bytes before reading failed. NULL if memory is refused. */
static uint8_t *whole(size_t *length) {
  uint8_t *bytes = NULL;
  size_t room = 0, n;
  *length = 0;
  do {
    if (*length == room) {
      uint8_t *more = (uint8_t *)realloc(bytes, room = 2 * room + 65536);
      if (!more) {
        free(bytes);
        return NULL;
      }
      bytes = more;
    }
    n = fread(bytes + *length, 1, room - *length, stdin);
    *length += n;
  } while (n > 0);
  return bytes;
}

/* Returns the converted bytes: a first call gives the length, a second one writes. NULL if there are none to write. */
static uint8_t *converted(conversion call, const uint8_t *bytes, size_t length, wmod_output *output) {
  wmod_options options = WMOD_OPTIONS;
  uint8_t *out;
  if (call(bytes, length, &options, NULL, 0, output) != WMOD_NO_ROOM) {
    return NULL;
  }
  out = (uint8_t *)malloc(output->length);
  if (!out) {
    output->status = WMOD_MEMORY;
  } else if (call(bytes, length, &options, out, output->length, output) != WMOD_VALID) {
    free(out);
    out = NULL;
  }
  return out;
}

static void say_refusal(const wmod_output *output, int is_build) {
  char name[32];
  const char *front = "";
  if (is_build && output->why != WMOD_WHY_TOO_LONG) {
    front = output->why > WMOD_WHY_TOO_LARGE ? "text " : "module ";
  }
  wmod_why_name(output->why, name, sizeof name);
  if (output->why == WMOD_WHY_TOO_LARGE) {
    printf("%srefused: %s\n", front, name);
  } else {
    printf("%srefused at %lu: %s\n", front, (unsigned long)output->at, name);
  }
}

int main(int count, char **words) {
  const char *action = count > 1 ? words[1] : "canon";
  int is_build = strcmp(action, "build") == 0;
  conversion call = is_build ? wmod_build : strcmp(action, "show") == 0 ? wmod_show : wmod_canon;
  wmod_output output;
  size_t length;
  uint8_t *bytes = whole(&length), *out;
  if (!bytes) {
    return WMOD_MEMORY;
  }
  if (ferror(stdin)) {
    fputs("convert: standard input cannot be read\n", stderr);
    free(bytes);
    return 3;
  }
  out = converted(call, bytes, length, &output);
  if (out) {
    fwrite(out, 1, output.length, stdout);
  } else if (output.status == WMOD_REFUSED) {
    say_refusal(&output, is_build);
  }
  free(out);
  free(bytes);
  return (int)output.status;
}
