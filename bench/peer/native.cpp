// The plain run by plain loops: the native yardstick.
//
//   native [-o] [-b BUDGET] [-r ROUNDS] < MODEL
//
// Prints the sheet (budget 1,000,000 if none is given). With -r it runs so many times, and writes `time NANOSECONDS N` of the fastest to
// standard error. It runs the lowest number first in any case; -o is taken, and changes nothing, so that tests/judge can run it in SystemC's place.
#include "model.h"
#include <algorithm>
#include <chrono>
#include <cstdlib>
#include <cstring>
#include <unistd.h>

// A cycle is one number, time x 1,024 + delta.
static const uint64_t NEVER = ~0ull;

struct Engine {
  const Model &m;
  Code code;
  uint32_t variable[64] = {}, waiting[32] = {};  // waiting: for each event a bit for each thread
  uint64_t ready[32], since[32] = {}, n = 0;     // ready: its cycle, or never
  uint8_t segment[32] = {}, event[32] = {};
  State state[32] = {};

  explicit Engine(const Model &model) : m(model) {
    code.map(m);
    std::fill(ready, ready + 32, NEVER);
    for (int k = 0; k < m.t; k++) ready[k] = 0, segment[k] = m.first[k], state[k] = READY;
  }

  void rest(int k, State s, uint64_t now) { state[k] = s, since[k] = now, ready[k] = NEVER; }

  void next_delta(int k, uint64_t now) {
    if (now % 1024 == 1023) rest(k, OVERRUN, now);
    else state[k] = READY, ready[k] = now + 1;
  }

  // Runs the segment of thread k; the events that it notifies are added to the bits of told.
  void run(int k, uint64_t now, uint32_t &told) {
    const Segment &s = code.of[k][segment[k]];
    execute(s, variable, [&](uint8_t e) { told |= 1u << e; });
    n++;
    if (s.kind == 0) return rest(k, ENDED, now);
    segment[k] = next_segment(s, variable);
    if (s.kind == 2) {
      rest(k, WAITING, now);
      event[k] = s.event;
      waiting[s.event] |= 1u << k;
    } else if (s.delay) ready[k] = (now / 1024 + s.delay) * 1024;
    else next_delta(k, now);
  }

  void wake(uint32_t told, uint64_t now) {
    for (; told; told &= told - 1) {
      uint32_t &w = waiting[__builtin_ctz(told)];
      for (; w; w &= w - 1) next_delta(__builtin_ctz(w), now);
    }
  }

  // Whether the run is spent.
  bool all(uint64_t budget) {
    const uint64_t end = ((uint64_t)m.horizon + 1) * 1024;
    for (;;) {
      uint64_t now = NEVER;
      for (int k = 0; k < m.t; k++) now = std::min(now, ready[k]);
      if (now >= end) return false;
      uint32_t told = 0;
      for (int k = 0; k < m.t; k++)
        if (ready[k] == now) {
          if (n == budget) return true;
          run(k, now, told);
        }
      wake(told, now);
    }
  }
};

static Run run_of(const Model &m, uint64_t budget) {
  Engine x(m);
  Run out;
  out.spent = x.all(budget);
  out.n = x.n;
  memcpy(out.variable, x.variable, sizeof x.variable);
  for (int k = 0; k < m.t; k++) {
    uint64_t c = x.state[k] == READY ? x.ready[k] : x.since[k];
    out.thread[k] = {x.segment[k], x.state[k], x.event[k], c / 1024, (uint32_t)(c % 1024)};
  }
  return out;
}

int main(int argc, char **argv) {
  uint64_t budget = 1000000, fastest = NEVER;
  int rounds = 0;
  for (int c; (c = getopt(argc, argv, "ob:r:")) != -1;) {
    if (c == 'b') budget = strtoull(optarg, nullptr, 10);
    else if (c == 'r') rounds = atoi(optarg);
    else if (c != 'o') return 2;
  }
  static Model m;
  if (!accepted(m)) return 0;
  Run out;
  for (int i = 0; i < std::max(rounds, 1); i++) {
    auto start = std::chrono::steady_clock::now();
    out = run_of(m, budget);
    uint64_t ns = std::chrono::nanoseconds(std::chrono::steady_clock::now() - start).count();
    fastest = std::min(fastest, ns);
  }
  if (rounds) fprintf(stderr, "time %" PRIu64 " %" PRIu64 "\n", fastest, out.n);
  print_sheet(m, out);
}
