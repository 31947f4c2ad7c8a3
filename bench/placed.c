/* The least time of three plain runs with a budget of a million segments, in ns, of the model on standard input. PAD bytes stand before the library's code. */
#include "teaselauger.h"
#include <stdio.h>
#include <time.h>

#define TEXT(x) #x
#define PADDED(n) __asm__(".text\n.skip " TEXT(n) ", 0x90\n")
PADDED(PAD);

static uint8_t file[65536], out[TEASELAUGER_SHEET];

static long now(void) {
  struct timespec t;
  clock_gettime(CLOCK_MONOTONIC, &t);
  return t.tv_sec * 1000000000L + t.tv_nsec;
}

int main(void) {
  size_t n = fread(file, 1, sizeof file, stdin);
  long least = -1;
  for (int i = 0; i < 3; i++) {
    long began = now();
    teaselauger_sheet(file, n, 1000000, out, sizeof out);
    long took = now() - began;
    if (least < 0 || took < least) least = took;
  }
  printf("%ld\n", least);
}
