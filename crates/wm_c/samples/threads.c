/* Judges one module of at most a megabyte in two threads at once, each with its own handle and length of pieces. The
 * main thread begins and ends both handles. If both agree, prints `valid` or `refused at N: NAME`.
 *
 *   cc -pthread threads.c $(pkg-config --cflags --libs wmod) -o threads
 */
#include "wmod.h"
#include <pthread.h>
#include <stdio.h>
#include <string.h>

#define ROUNDS 100

static uint8_t module[1 << 20];
static size_t length;

typedef struct job {
  size_t piece;
  wmod_validator v;
  wmod_answer answer;
} job;

static void *feed(void *given) {
  job *it = (job *)given;
  size_t at = 0;
  while (at < length) {
    size_t n = length - at < it->piece ? length - at : it->piece;
    if (wmod_feed(&it->v, module + at, n) != WMOD_VALID) {
      break; /* wmod_finish says why */
    }
    at += n;
  }
  return NULL;
}

/* Judges the module once with each handle. Returns 0, the status of a begin that failed, or 3 if a thread cannot start. */
static int judge(job jobs[2]) {
  pthread_t threads[2];
  int status = 0;
  int begun = 0;
  int n;
  while (begun < 2 && status == 0) {
    job *it = &jobs[begun];
    status = (int)wmod_begin(&it->v, WMOD_PROFILE_1, WMOD_LIMIT_DEFAULT);
    if (status == 0 && pthread_create(&threads[begun], NULL, feed, it) != 0) {
      wmod_end(&it->v);
      status = 3;
    }
    begun += status == 0;
  }
  for (n = 0; n < begun; n++) {
    pthread_join(threads[n], NULL);
    wmod_finish(&jobs[n].v, &jobs[n].answer);
    wmod_end(&jobs[n].v);
  }
  return status;
}

int main(void) {
  job jobs[2];
  char name[32];
  int n;
  memset(jobs, 0, sizeof jobs); /* a handle begins as all bytes 0 */
  jobs[0].piece = 7;
  jobs[1].piece = 64;
  length = fread(module, 1, sizeof module, stdin);
  if (getc(stdin) != EOF || ferror(stdin)) {
    fputs("threads: standard input cannot be read, or is longer than a megabyte\n", stderr);
    return 3;
  }
  for (n = 0; n < ROUNDS; n++) {
    int status = judge(jobs);
    if (status != 0) {
      return status;
    }
  }
  if (memcmp(&jobs[0].answer, &jobs[1].answer, sizeof jobs[0].answer) != 0) {
    puts("the two differ");
    return 2;
  }
  if (jobs[0].answer.status == WMOD_VALID) {
    puts("valid");
  } else {
    wmod_why_name(jobs[0].answer.why, name, sizeof name);
    printf("refused at %lu: %s\n", (unsigned long)jobs[0].answer.at, name);
  }
  return (int)jobs[0].answer.status;
}
