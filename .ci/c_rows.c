/* Makes the call of each line of standard input, and prints the line with ` = ` and the answer of the call.
 *
 *   validate PROFILE LIMIT INPUT, with OPTIONS INPUT      the status and the eight fields of the answer
 *   begin PROFILE LIMIT, options OPTIONS                  the status
 *   feed INPUT                                            the status
 *   finish                                                the status and the eight fields of the answer
 *   end                                                   0, since the call returns nothing
 *   held                                                  1 if the handle holds something, else 0
 *   canon, show or build: ROOM OPTIONS INPUT              the status, the four fields of the output, and the buffer
 *   name NUMBER ROOM                                      the length and the buffer, with `0` for its end
 *   explain NUMBER ROOM                                   the same, with `|` for a line feed
 *   place                                                 the status and the five fields of the place, with `-` for none
 *   hint ROOM                                             as `explain`, of the place of the handle and its answer
 *   version                                               the version of the library
 *
 * OPTIONS are all seven options, with `-` for no limit. INPUT is in hexadecimal digits: `H` is the header, and `.` is
 * the empty input. For `build` it is a text. ROOM is the size of the buffer. `canon` and `build` print the buffer in
 * hexadecimal digits, and `show` prints it as a text with `|` for a line feed.
 */
#include "wmod.h"
#include <stdio.h>
#include <stdlib.h>
#include <string.h>

enum { LINE = 1000, ROOM = WMOD_EXPLAIN_ROOM, HEADER = 8 };

static const uint8_t header[HEADER] = {0, 'a', 's', 'm', 1, 0, 0, 0};
/* the unread rest of the line */
static const char *rest;

static void fail(const char *what) {
  fprintf(stderr, "c_rows: %s\n", what);
  exit(3);
}

/* Reads the next word of the line. */
static void word(char *into, size_t room) {
  size_t length = strcspn(rest, " ");
  if (length == 0 || length >= room) fail("no word");
  memcpy(into, rest, length);
  into[length] = 0;
  rest += length + (rest[length] == ' ');
}

/* Reads a number. `-` is WMOD_NO_LIMIT. */
static uint64_t number(void) {
  char digits[30];
  const char *at;
  uint64_t sum = 0;
  word(digits, sizeof digits);
  if (strcmp(digits, "-") == 0) return WMOD_NO_LIMIT;
  for (at = digits; *at; at++) {
    if (*at < '0' || *at > '9') fail("no number");
    sum = 10 * sum + (uint64_t)(*at - '0');
  }
  return sum;
}

static wmod_options asked(void) {
  wmod_options options;
  options.size = number();
  options.profile = number();
  options.max_bytes = number();
  options.functions = number();
  options.locals = number();
  options.depth = number();
  options.old_words = number();
  return options;
}

static unsigned digit(char c) {
  if (c >= '0' && c <= '9') return (unsigned)(c - '0');
  if (c >= 'A' && c <= 'F') return (unsigned)(c - 'A') + 10;
  fail("no digit");
  return 0;
}

/* Reads the rest of the line as an input. Returns its length. */
static size_t input(uint8_t *bytes) {
  size_t length = 0;
  if (strcmp(rest, ".") == 0) return 0;
  if (*rest == 'H') {
    memcpy(bytes, header, HEADER);
    length = HEADER;
    rest++;
  }
  for (; *rest; rest += 2) bytes[length++] = (uint8_t)(16 * digit(rest[0]) + digit(rest[1]));
  return length;
}

static void say(uint64_t number) { printf("%lu", (unsigned long)number); }

static void say_answer(uint32_t ended, const wmod_answer *answer) {
  printf("%lu: %lu %lu", (unsigned long)ended, (unsigned long)answer->status, (unsigned long)answer->why);
  printf(" %lu %lu", (unsigned long)answer->at, (unsigned long)answer->functions);
  printf(" %lu %lu", (unsigned long)answer->moves, (unsigned long)answer->operands);
  printf(" %lu %lu", (unsigned long)answer->controls, (unsigned long)answer->probes);
}

/* Prints a buffer. `?` is a byte that the call did not write. */
static void say_room(const uint8_t *out, size_t room, int in_digits) {
  size_t i;
  for (i = 0; i < room; i++) {
    if (in_digits && out[i] != '?') printf("%02x", out[i]);
    else if (in_digits) printf("??");
    else putchar(out[i] == '\n' ? '|' : out[i]);
  }
}

static void whole(int with_options) {
  uint8_t bytes[LINE];
  wmod_options options;
  wmod_answer answer;
  uint32_t profile, ended;
  uint64_t limit;
  size_t length;
  if (with_options) {
    options = asked();
    length = input(bytes);
    ended = wmod_validate_with(bytes, length, &options, &answer);
  } else {
    profile = (uint32_t)number();
    limit = number();
    length = input(bytes);
    ended = wmod_validate(bytes, length, profile, limit, &answer);
  }
  say_answer(ended, &answer);
}

static void convert(const char *name) {
  uint8_t bytes[LINE], out[ROOM];
  wmod_output output;
  wmod_options options;
  uint32_t ended;
  size_t length, room = (size_t)number();
  if (room > ROOM) fail("too much room");
  memset(out, '?', room);
  options = asked();
  if (strcmp(name, "build") == 0) {
    ended = wmod_build((const uint8_t *)rest, strlen(rest), &options, out, room, &output);
  } else {
    length = input(bytes);
    ended = (*name == 'c' ? wmod_canon : wmod_show)(bytes, length, &options, out, room, &output);
  }
  printf("%lu: %lu %lu", (unsigned long)ended, (unsigned long)output.status, (unsigned long)output.why);
  printf(" %lu %lu ", (unsigned long)output.at, (unsigned long)output.length);
  say_room(out, room, *name != 's');
}

/* Prints the length of a text, and its buffer. */
static void say_text(size_t length, const char *out, size_t room) {
  size_t i;
  printf("%lu ", (unsigned long)length);
  for (i = 0; i < room; i++) putchar(out[i] == '\n' ? '|' : out[i] ? out[i] : '0');
}

/* Reads the size of a buffer, and fills the buffer. */
static size_t filled(char *out) {
  size_t room = (size_t)number();
  if (room > ROOM) fail("too much room");
  memset(out, '?', room);
  return room;
}

/* Makes one of the two calls that write a text about a refusal. */
static void words_of(size_t (*call)(uint32_t, char *, size_t)) {
  char out[ROOM];
  uint32_t why = (uint32_t)number();
  size_t room = filled(out);
  say_text(call(why, out, room), out, room);
}

/* Ends the input of the handle, and makes the call that says what the refused byte begins. */
static void hint(wmod_validator *v) {
  char out[ROOM];
  struct wmod_place place;
  wmod_answer answer;
  size_t room = filled(out);
  wmod_finish(v, &answer);
  wmod_place(v, &place);
  say_text(wmod_hint(answer.why, &place, out, room), out, room);
}

static void say_field(uint32_t field) {
  if (field == WMOD_NONE) printf(" -");
  else printf(" %lu", (unsigned long)field);
}

/* Makes a call on the handle. */
static void piecewise(wmod_validator *v, const char *name) {
  uint8_t bytes[LINE];
  wmod_options options;
  wmod_answer answer;
  struct wmod_place place;
  uint32_t profile, ended;
  size_t length;
  if (strcmp(name, "begin") == 0) {
    profile = (uint32_t)number();
    say(wmod_begin(v, profile, number()));
  } else if (strcmp(name, "options") == 0) {
    options = asked();
    say(wmod_begin_with(v, &options));
  } else if (strcmp(name, "feed") == 0) {
    length = input(bytes);
    say(wmod_feed(v, bytes, length));
  } else if (strcmp(name, "finish") == 0) {
    ended = wmod_finish(v, &answer);
    say_answer(ended, &answer);
  } else if (strcmp(name, "place") == 0) {
    ended = wmod_place(v, &place);
    printf("%lu:", (unsigned long)ended);
    say_field(place.section);
    say_field(place.item);
    say_field(place.index);
    say_field(place.awaits);
    say_field(place.byte);
  } else if (strcmp(name, "end") == 0) {
    wmod_end(v);
    say(0);
  } else if (strcmp(name, "held") == 0) {
    say(v->state != NULL);
  } else {
    fail("no call");
  }
}

int main(void) {
  static char line[LINE];
  char name[10];
  wmod_validator v = WMOD_VALIDATOR_EMPTY;
  while (fgets(line, sizeof line, stdin)) {
    line[strcspn(line, "\n")] = 0;
    printf("%s = ", line);
    rest = line;
    word(name, sizeof name);
    if (strcmp(name, "validate") == 0 || strcmp(name, "with") == 0) whole(*name == 'w');
    else if (strcmp(name, "canon") == 0 || strcmp(name, "show") == 0 || strcmp(name, "build") == 0) convert(name);
    else if (strcmp(name, "name") == 0) words_of(wmod_why_name);
    else if (strcmp(name, "explain") == 0) words_of(wmod_explain);
    else if (strcmp(name, "hint") == 0) hint(&v);
    else if (strcmp(name, "version") == 0) say(wmod_version());
    else piecewise(&v, name);
    putchar('\n');
  }
  return 0;
}
