// The plain run on SystemC (IEEE 1666; tried with Accellera's 2.3.4): the outside judge, and a peer to measure beside.
//
//   systemc [-m | -o] [-b BUDGET] [-t] < MODEL
//
// Each thread of the model is an SC_THREAD; with -m an SC_METHOD. The standard leaves the order within a cycle open. With -o the threads of a
// cycle run lowest number first. Prints the sheet (budget 1,000,000 if none is given); -t writes `time NANOSECONDS N` of the simulation to standard error.
//
// SystemC's own are time, deltas, waits, delta notification and the horizon. Ours are the reader, the statements, which wait a closer asks
// for, overrun at 1,024 deltas, and the budget. A unit is the simulator's least time.
#define SC_INCLUDE_DYNAMIC_PROCESSES
#include "model.h"
#include <chrono>
#include <cstdlib>
#include <memory>
#include <systemc>
#include <unistd.h>
using namespace sc_core;

static Model m;
static Code code;
static Run run;
static uint64_t budget = 1000000;

static sc_time units(uint64_t k) { return sc_time::from_value(k); }

struct Site : sc_module {
  std::unique_ptr<sc_event[]> event{new sc_event[32]}, turn{new sc_event[32]};
  sc_event called;
  uint64_t time = 0, first = 0;  // first: the simulator's count of deltas at delta 0 of this time
  uint32_t delta = 0, due = 0;   // due: with -o, a bit for each thread that is to run in this cycle
  uint64_t last = 0;             // with -o, the stamp that ran last, as a number, plus 1

  SC_HAS_PROCESS(Site);
  Site(sc_module_name name, char style) : sc_module(name) {
    for (int k = 0; k < m.t; k++) {
      run.thread[k] = {m.first[k], READY, 0, 0, 0};
      sc_spawn_options as;
      if (style == 'm') as.spawn_method();
      auto body = style == 'm' ? &Site::method : style == 'o' ? &Site::in_turn : &Site::thread;
      sc_spawn([this, k, body] { (this->*body)(k); }, sc_gen_unique_name("thread"), &as);
    }
    if (style != 'o') return;
    SC_METHOD(call);
    sensitive << called;
    dont_initialize();
  }

  // Where the clock stands. The first thread to run at a new time does so in its delta 0.
  void look_at_clock() {
    uint64_t now = sc_time_stamp().value(), count = sc_delta_count();
    if (now != time) time = now, first = count;
    delta = (uint32_t)(count - first);
  }

  // Whether thread k, due in this cycle, may run: not past the last delta, nor over the budget.
  bool may_run(int k) {
    look_at_clock();
    Record &x = run.thread[k];
    if (delta > 1023) {
      x.state = OVERRUN, x.time = time, x.delta = 1023;
      return false;
    }
    if (run.n < budget) return true;
    x.state = READY, x.time = time, x.delta = delta;
    if (!run.spent) sc_stop();  // the others of this cycle come here too, and nothing is woken after it
    run.spent = true;
    return false;
  }

  // Runs the segment of thread k, and leaves its record as the closer says. Whether it goes on.
  bool run_segment(int k, const Segment &s) {
    Record &x = run.thread[k];
    execute(s, run.variable, [this](uint8_t e) { event[e].notify(SC_ZERO_TIME); });
    run.n++;
    x.time = time, x.delta = delta;
    if (s.kind == 0) return x.state = ENDED, false;
    x.segment = next_segment(s, run.variable);
    if (s.kind == 2) return x.state = WAITING, x.event = s.event, true;
    if (s.delay) return x.state = READY, x.time += s.delay, x.delta = 0, true;
    if (delta == 1023) return x.state = OVERRUN, false;
    return x.state = READY, x.delta++, true;
  }

  // One segment and its wait. Whether the thread goes on.
  bool step(int k) {
    if (!may_run(k)) return false;
    const Segment &s = code.of[k][run.thread[k].segment];
    if (!run_segment(k, s)) return false;
    if (s.kind == 2) wait(event[s.event]);
    else wait(s.delay ? units(s.delay) : SC_ZERO_TIME);
    return true;
  }

  void thread(int k) {
    while (step(k)) {}
  }

  // Called once for each segment; a method that asks for no trigger does not run again.
  void method(int k) {
    if (!may_run(k)) return;
    const Segment &s = code.of[k][run.thread[k].segment];
    if (!run_segment(k, s)) return;
    if (s.kind == 2) next_trigger(event[s.event]);
    else next_trigger(s.delay ? units(s.delay) : SC_ZERO_TIME);
  }

  // With -o a thread that is due says so and waits for its turn, all within one evaluation phase, by immediate notification. Accellera's kernel
  // runs all that are due before it runs what they notify, so that the call finds all of them; the standard does not promise that, so that it is checked.
  void in_turn(int k) {
    do {
      due |= 1u << k;
      called.notify();
      wait(turn[k]);
      called.notify();
      in_order(k);
    } while (step(k));
  }

  void call() {
    if (!due) return;
    turn[__builtin_ctz(due)].notify();
    due &= due - 1;
  }

  void in_order(int k) {
    look_at_clock();
    uint64_t stamp = (time * 2048 + delta) * 32 + k + 1;
    if (stamp <= last) {
      fprintf(stderr, "systemc: this kernel does not keep the order that -o asks for\n");
      exit(3);
    }
    last = stamp;
  }
};

int sc_main(int argc, char **argv) {
  char style = 't';
  bool timed = false;
  for (int c; (c = getopt(argc, argv, "mob:t")) != -1;) {
    if (c == 'm' || c == 'o') style = (char)c;
    else if (c == 'b') budget = strtoull(optarg, nullptr, 10);
    else if (c == 't') timed = true;
    else return 2;
  }
  if (!accepted(m)) return 0;
  code.map(m);
  sc_report_handler::set_actions(SC_INFO, SC_DO_NOTHING);
  Site site("site", style);
  auto start = std::chrono::steady_clock::now();
  sc_start(units(m.horizon + 1)); // what is ready at the horizon runs
  uint64_t ns = std::chrono::nanoseconds(std::chrono::steady_clock::now() - start).count();
  if (timed) fprintf(stderr, "time %" PRIu64 " %" PRIu64 "\n", ns, run.n);
  print_sheet(m, run);
  return 0;
}
