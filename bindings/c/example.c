/* Reads a model file, prints the sheet of its plain run, then issues threads one at a time, lowest number first, until none is granted;
   after the word `rows` by rows, and after the word `apart` with grants and finishes apart: as many threads as can be granted at once, and
   then their finishes, highest number first. A last argument is how many words are lent for the tables, or for a row. */
#include "teaselauger.h"
#include <inttypes.h>
#include <stdio.h>
#include <stdlib.h>
#include <string.h>

/* the buffers of a state, as the calls take them */
#define STATE variables, TEASELAUGER_VARIABLES, log_words, TEASELAUGER_LOG, records, TEASELAUGER_RECORDS

static uint8_t file[65536], out[TEASELAUGER_SHEET];
static uint64_t words[TEASELAUGER_WORDS], row[TEASELAUGER_ROW], log_words[TEASELAUGER_LOG], records[TEASELAUGER_RECORDS], answer[3];
static uint32_t variables[TEASELAUGER_VARIABLES], held[TEASELAUGER_HELD];

static uint8_t request(size_t n, int by_rows, uint8_t thread) {
  if (by_rows) return teaselauger_request_by_rows(file, n, row, TEASELAUGER_ROW, STATE, thread, answer, 3);
  return teaselauger_request(file, n, words, TEASELAUGER_WORDS, STATE, thread, answer, 3);
}

static uint8_t grant(size_t n, int by_rows, uint8_t thread) {
  if (by_rows) return teaselauger_grant_by_rows(file, n, row, TEASELAUGER_ROW, held, TEASELAUGER_HELD, STATE, thread, answer, 3);
  return teaselauger_grant(file, n, words, TEASELAUGER_WORDS, held, TEASELAUGER_HELD, STATE, thread, answer, 3);
}

static uint8_t finish(size_t n, int by_rows, uint8_t thread) {
  if (by_rows) return teaselauger_finish_by_rows(file, n, row, TEASELAUGER_ROW, held, TEASELAUGER_HELD, STATE, thread, answer, 3);
  return teaselauger_finish(file, n, words, TEASELAUGER_WORDS, held, TEASELAUGER_HELD, STATE, thread, answer, 3);
}

/* how many were granted, one after the other */
static uint64_t one_by_one(size_t n, int by_rows) {
  uint64_t granted = 0;
  for (int thread = 0; thread < 32;) {
    if (request(n, by_rows, (uint8_t)thread) == 0) {
      granted++;
      thread = 0;
    } else
      thread++;
  }
  return granted;
}

/* how many were granted, and finished */
static uint64_t many_at_once(size_t n, int by_rows) {
  uint64_t granted = 0, before;
  do {
    before = granted;
    for (int thread = 0; thread < 32; thread++)
      if (grant(n, by_rows, (uint8_t)thread) == 0) granted++;
    for (int thread = 31; thread >= 0; thread--)
      finish(n, by_rows, (uint8_t)thread);
  } while (granted > before);
  return granted;
}

int main(int argc, char **argv) {
  int last = 2, by_rows, apart;
  last += by_rows = argc > last && !strcmp(argv[last], "rows");
  last += apart = argc > last && !strcmp(argv[last], "apart");
  FILE *f = argc == last || argc == last + 1 ? fopen(argv[1], "rb") : 0;
  if (!f) return fprintf(stderr, "usage: example MODEL [rows] [apart] [WORDS]\n"), 2;
  size_t n = fread(file, 1, sizeof file, f);
  fclose(f);

  size_t most = by_rows ? TEASELAUGER_ROW : TEASELAUGER_WORDS, lent = argc > last ? strtoul(argv[last], 0, 10) : most;
  if (lent > most) lent = most;
  uint8_t number = by_rows ? teaselauger_load_by_rows(file, n, row, lent) : teaselauger_load(file, n, words, lent);
  if (!number) number = teaselauger_fresh(file, n, STATE);
  if (number) return printf("refused %u\n", number), 1;
  fwrite(out, 1, teaselauger_sheet(file, n, 1000000, out, sizeof out), stdout);
  uint64_t granted = apart ? many_at_once(n, by_rows) : one_by_one(n, by_rows);
  printf("granted %" PRIu64 ", variable 0 is %" PRIu32 "\n", granted, variables[0]);
  return 0;
}
