/* Calls each function that takes bytes with NULL and length 0, and each that takes a buffer with NULL and no room.
 * Prints a line for each call: the returned value, then the number of the refusal and its offset, or the length.
 */
#include "wmod.h"
#include <stdio.h>

static void say(const char *call, uint32_t status, uint32_t why, uint64_t number) {
  printf("%s %lu %lu %lu\n", call, (unsigned long)status, (unsigned long)why, (unsigned long)number);
}

int main(void) {
  static const uint8_t module[8] = {0, 'a', 's', 'm', 1, 0, 0, 0};
  static const uint8_t text[8] = {'(', 'm', 'o', 'd', 'u', 'l', 'e', ')'};
  wmod_options options = WMOD_OPTIONS;
  wmod_validator v = WMOD_VALIDATOR_EMPTY;
  wmod_answer answer;
  wmod_output output;
  /* the byte FD, which begins an instruction on vectors */
  struct wmod_place vector = {10, 0, 0, WMOD_AWAITS_OPCODE, 0xFD};
  uint32_t status;
  status = wmod_validate(NULL, 0, WMOD_PROFILE_1, WMOD_LIMIT_DEFAULT, &answer);
  say("validate", status, answer.why, answer.at);
  status = wmod_validate_with(NULL, 0, &options, &answer);
  say("validate_with", status, answer.why, answer.at);
  say("begin", wmod_begin_with(&v, &options), 0, 0);
  say("feed", wmod_feed(&v, NULL, 0), 0, 0);
  say("feed a module", wmod_feed(&v, module, sizeof module), 0, 0);
  say("feed", wmod_feed(&v, NULL, 0), 0, 0);
  status = wmod_finish(&v, &answer);
  say("finish", status, answer.why, answer.at);
  say("feed", wmod_feed(&v, NULL, 0), 0, 0);
  wmod_end(&v);
  status = wmod_canon(NULL, 0, &options, NULL, 0, &output);
  say("canon", status, output.why, output.at);
  status = wmod_show(NULL, 0, &options, NULL, 0, &output);
  say("show", status, output.why, output.at);
  status = wmod_build(NULL, 0, &options, NULL, 0, &output);
  say("build", status, output.why, output.at);
  status = wmod_canon(module, sizeof module, &options, NULL, 0, &output);
  say("canon a module", status, output.why, output.length);
  status = wmod_show(module, sizeof module, &options, NULL, 0, &output);
  say("show a module", status, output.why, output.length);
  status = wmod_build(text, sizeof text, &options, NULL, 0, &output);
  say("build a text", status, output.why, output.length);
  printf("why_name %lu\n", (unsigned long)wmod_why_name(WMOD_WHY_MAGIC, NULL, 0));
  printf("explain %lu\n", (unsigned long)wmod_explain(WMOD_WHY_MANY_LOCALS, NULL, 0));
  printf("hint %lu\n", (unsigned long)wmod_hint(WMOD_WHY_BAD_OPCODE, &vector, NULL, 0));
  return 0;
}
