/* The deepest stack that each call of the library needs, in KB, over the model files named: a call runs on a stack that was painted before, and
   on the fresh state. */
#include "teaselauger.h"
#include <pthread.h>
#include <stdio.h>
#include <stdlib.h>
#include <string.h>

enum { STACK = 1 << 22, PAINT = 0xa5, LIST = 256 };

static uint8_t file[65536], out[TEASELAUGER_SHEET], *stack;
static uint16_t calls_made[LIST];
static size_t n;
static uint64_t words[TEASELAUGER_WORDS], row[TEASELAUGER_ROW], log_words[TEASELAUGER_LOG], records[TEASELAUGER_RECORDS], answers[5 * LIST];
static uint32_t variables[TEASELAUGER_VARIABLES], held[TEASELAUGER_HELD], numbers[TEASELAUGER_MODEL];
static uint8_t again[TEASELAUGER_FILE];

static void call_read(void) { teaselauger_read(file, n); }
static void call_load(void) { teaselauger_load(file, n, words, TEASELAUGER_WORDS); }
static void call_sheet(void) { teaselauger_sheet(file, n, 1000000, out, sizeof out); }
static void call_fresh(void) {
  teaselauger_fresh(file, n, variables, TEASELAUGER_VARIABLES, log_words, TEASELAUGER_LOG, records, TEASELAUGER_RECORDS);
}
static void call_request(void) {
  teaselauger_request(file, n, words, TEASELAUGER_WORDS, variables, TEASELAUGER_VARIABLES, log_words, TEASELAUGER_LOG, records, TEASELAUGER_RECORDS, 0,
                      answers, 3);
}
static void call_replay(void) {
  teaselauger_replay(file, n, words, TEASELAUGER_WORDS, held, TEASELAUGER_HELD, calls_made, LIST, answers, 5 * LIST, variables, TEASELAUGER_VARIABLES,
                     log_words, TEASELAUGER_LOG, records, TEASELAUGER_RECORDS);
}
static void call_load_by_rows(void) { teaselauger_load_by_rows(file, n, row, TEASELAUGER_ROW); }
static void call_request_by_rows(void) {
  teaselauger_request_by_rows(file, n, row, TEASELAUGER_ROW, variables, TEASELAUGER_VARIABLES, log_words, TEASELAUGER_LOG, records,
                              TEASELAUGER_RECORDS, 0, answers, 3);
}
static void call_replay_by_rows(void) {
  teaselauger_replay_by_rows(file, n, row, TEASELAUGER_ROW, held, TEASELAUGER_HELD, calls_made, LIST, answers, 5 * LIST, variables,
                             TEASELAUGER_VARIABLES, log_words, TEASELAUGER_LOG, records, TEASELAUGER_RECORDS);
}
static void call_grant(void) {
  teaselauger_grant(file, n, words, TEASELAUGER_WORDS, held, TEASELAUGER_HELD, variables, TEASELAUGER_VARIABLES, log_words, TEASELAUGER_LOG, records,
                    TEASELAUGER_RECORDS, 0, answers, 3);
}
static void call_finish(void) {
  teaselauger_finish(file, n, words, TEASELAUGER_WORDS, held, TEASELAUGER_HELD, variables, TEASELAUGER_VARIABLES, log_words, TEASELAUGER_LOG, records,
                     TEASELAUGER_RECORDS, 0, answers, 3);
}
static void call_grant_by_rows(void) {
  teaselauger_grant_by_rows(file, n, row, TEASELAUGER_ROW, held, TEASELAUGER_HELD, variables, TEASELAUGER_VARIABLES, log_words, TEASELAUGER_LOG,
                            records, TEASELAUGER_RECORDS, 0, answers, 3);
}
static void call_finish_by_rows(void) {
  teaselauger_finish_by_rows(file, n, row, TEASELAUGER_ROW, held, TEASELAUGER_HELD, variables, TEASELAUGER_VARIABLES, log_words, TEASELAUGER_LOG,
                             records, TEASELAUGER_RECORDS, 0, answers, 3);
}
static void call_model(void) { teaselauger_model(file, n, numbers, TEASELAUGER_MODEL); }
static void call_write(void) { teaselauger_write(numbers, TEASELAUGER_MODEL, again, sizeof again, answers, 1); }
static void call_none(void) {}

static void *run(void *call) {
  (*(void (**)(void))call)();
  return 0;
}

static size_t depth(void (*call)(void)) {
  pthread_attr_t attr;
  pthread_t thread;
  size_t low = 0;
  memset(stack, PAINT, STACK);
  pthread_attr_init(&attr);
  pthread_attr_setstack(&attr, stack, STACK);
  if (pthread_create(&thread, &attr, run, &call)) exit(2);
  pthread_join(thread, 0);
  while (low < STACK && stack[low] == PAINT) low++;
  return STACK - low;
}

int main(int argc, char **argv) {
  static const struct {
    const char *name;
    void (*call)(void);
  } calls[] = {
      {"read", call_read},
      {"load", call_load},
      {"load_by_rows", call_load_by_rows},
      {"sheet", call_sheet},
      {"fresh", call_fresh},
      {"request", call_request},
      {"request_by_rows", call_request_by_rows},
      {"grant", call_grant},
      {"finish", call_finish},
      {"grant_by_rows", call_grant_by_rows},
      {"finish_by_rows", call_finish_by_rows},
      {"replay", call_replay},
      {"replay_by_rows", call_replay_by_rows},
      {"model", call_model},
      {"write", call_write},
  };
  enum { CALLS = sizeof calls / sizeof *calls };
  size_t most[CALLS] = {0};
  stack = aligned_alloc(4096, STACK);
  for (int i = 0; i < LIST; i++) calls_made[i] = (uint16_t)(i % 4);
  size_t none = depth(call_none);
  for (int a = 1; a < argc; a++) {
    FILE *f = fopen(argv[a], "rb");
    if (!f) return 2;
    n = fread(file, 1, sizeof file, f);
    fclose(f);
    for (int i = 0; i < CALLS; i++) {
      call_fresh();
      if (calls[i].call == call_finish || calls[i].call == call_finish_by_rows) call_grant();
      size_t d = depth(calls[i].call) - none;
      if (d > most[i]) most[i] = d;
    }
  }
  for (int i = 0; i < CALLS; i++) printf("| %s | %zu |\n", calls[i].name, (most[i] + 1023) / 1024);
}
