// A model file by plain loops: its number, its model, what a segment does, and the sheet of a run (docs/RULES.md, sections 3, 7 and 10).
// The native loops of bench/ and the SystemC peer stand on it; nothing here is taken from the proved library.
#pragma once
#include <algorithm>
#include <cinttypes>
#include <cstddef>
#include <cstdint>
#include <cstdio>
#include <vector>

enum State : uint8_t { ENDED, OVERRUN, READY, WAITING };

struct Statement {
  uint8_t op, a;
  uint32_t b;
};

struct Segment {
  uint8_t kind, event, a, b, test, n;
  uint32_t delay, limit;
  Statement body[32];
};

struct Model {
  uint32_t horizon;
  int v, e, n, t;
  Segment segment[64];
  uint8_t first[32], port[32][8];  // port: the variable of each, or 255
};

struct Record {
  uint8_t segment;
  State state;
  uint8_t event;
  uint64_t time;
  uint32_t delta;
};

struct Run {
  uint32_t variable[64];
  Record thread[32];
  uint64_t n;
  bool spent;
};

static const uint32_t MOST = 1000000000, NO_TEST = 255, NOTIFY = 6, PORT = 128, UNUSED = 255;

static inline uint32_t word(const uint8_t *p) { return p[0] | p[1] << 8; }
static inline uint32_t long_word(const uint8_t *p) { return word(p) | word(p + 2) << 16; }

static inline bool is_port(uint32_t x) { return x >= PORT && x < PORT + 8; }
static inline bool is_name(uint32_t x, const Model &m) { return x < (uint32_t)m.v || is_port(x); }

static inline int head_number(const uint8_t *r, Model &m) {
  m.horizon = long_word(r + 4), m.v = r[8], m.e = r[9];
  return m.horizon < 1 || m.horizon > MOST || m.v > 64 || m.e > 32 ? 4 : 0;
}

static inline int closer_number(const uint8_t *c, const Model &m, Segment &s) {
  s.kind = c[0], s.event = c[1], s.delay = long_word(c + 2), s.a = c[6], s.b = c[7], s.test = c[8], s.limit = long_word(c + 9);
  if (s.kind > 2 || (s.kind != 2 && s.event) || (s.kind != 1 && s.delay) || s.delay > MOST) return 5;
  if (s.kind == 0) return s.a || s.b || s.test || s.limit ? 5 : 0;
  if (s.test == NO_TEST && (s.a != s.b || s.limit)) return 5;
  if (s.kind == 2 && s.event >= m.e) return 7;
  return s.test != NO_TEST && !is_name(s.test, m) ? 7 : 0;
}

static inline int statement_number(const uint8_t *q, const Model &m, Statement &x) {
  x = {q[0], q[1], long_word(q + 2)};
  if (x.op < 1 || x.op > NOTIFY || (x.op == NOTIFY && x.b)) return 6;
  if (x.op == NOTIFY) return x.a >= m.e ? 7 : 0;
  return !is_name(x.a, m) || (x.op > 2 && !is_name(x.b, m)) ? 7 : 0;
}

static inline int segment_number(const uint8_t *r, uint32_t length, Model &m) {
  if (m.n == 64) return 4;
  Segment &s = m.segment[m.n++];
  int number = closer_number(r + 4, m, s);
  s.n = (length - 17) / 6;
  for (int i = 0; i < s.n && !number; i++) number = statement_number(r + 17 + 6 * i, m, s.body[i]);
  return number;
}

static inline int thread_number(const uint8_t *r, Model &m) {
  if (m.t == 32) return 4;
  std::fill(m.port[m.t], m.port[m.t] + 8, UNUSED);
  m.first[m.t++] = r[4];
  return 0;
}

// The ports of the last thread.
static inline int ports_number(const uint8_t *r, Model &m) {
  int used = 0;
  for (int p = 0; p < 8; p++) {
    uint8_t x = m.port[m.t - 1][p] = r[4 + p];
    if (x != UNUSED && x >= m.v) return 17;
    used += x != UNUSED;
  }
  return used ? 0 : 17;
}

static inline bool may_follow(uint32_t last, uint32_t kind) {
  if (last < 2) return kind == last + 1;
  if (last == 5) return kind == 3 || kind == 4;
  if (kind == 5) return last == 3;
  return kind == last || kind == last + 1;
}

static inline bool length_fits(uint32_t kind, uint32_t length) {
  if (kind == 2) return length >= 17 && length <= 209 && (length - 17) % 6 == 0;
  return length == (kind == 1 ? 10u : kind == 3 ? 5u : kind == 5 ? 12u : 4u);
}

static inline bool leaves_model(const Model &m) {
  for (int i = 0; i < m.n; i++)
    if (m.segment[i].kind && (m.segment[i].a >= m.n || m.segment[i].b >= m.n)) return true;
  for (int k = 0; k < m.t; k++)
    if (m.first[k] >= m.n) return true;
  return false;
}

// Whether a segment names a port that a thread leaves unused.
static inline bool lacks_port(const Segment &s, const uint8_t *port) {
  auto lacks = [&](uint32_t x) { return is_port(x) && port[x - PORT] == UNUSED; };
  if (s.kind && lacks(s.test)) return true;
  for (const Statement *x = s.body; x != s.body + s.n; x++)
    if (x->op != NOTIFY && (lacks(x->a) || (x->op > 2 && lacks(x->b)))) return true;
  return false;
}

// Whether thread k can reach such a segment, by next segments alone.
static inline bool reaches_lack(const Model &m, int k) {
  bool seen[64] = {};
  uint8_t due[64];
  int count = 0;
  auto reach = [&](uint8_t s) {
    if (!seen[s]) seen[s] = true, due[count++] = s;
  };
  reach(m.first[k]);
  for (int i = 0; i < count; i++) {
    const Segment &s = m.segment[due[i]];
    if (lacks_port(s, m.port[k])) return true;
    if (s.kind) reach(s.a), reach(s.b);
  }
  return false;
}

// The number of a file, 0 where it is accepted; its model is then in m.
static inline int read_model(const uint8_t *file, size_t count, Model &m) {
  m = Model{};
  size_t at = 0;
  for (uint32_t last = 0; last != 4;) {
    size_t left = count - at;
    const uint8_t *r = file + at;
    if (left < 4 || word(r) < 4 || word(r) > left) return 1;
    uint32_t length = word(r), kind = word(r + 2);
    if (kind > 5 || !may_follow(last, kind)) return 2;
    if (!length_fits(kind, length)) return 3;
    int number = kind == 1   ? head_number(r, m)
                 : kind == 2 ? segment_number(r, length, m)
                 : kind == 3 ? thread_number(r, m)
                 : kind == 5 ? ports_number(r, m)
                             : 0;
    if (number) return number;
    at += length;
    last = kind;
  }
  if (at < count) return 9;
  if (leaves_model(m)) return 8;
  for (int k = 0; k < m.t; k++)
    if (reaches_lack(m, k)) return 18;
  return 0;
}

// A segment as a thread with these ports runs it.
static inline Segment mapped(Segment s, const uint8_t *port) {
  auto name = [&](uint32_t x) { return is_port(x) ? port[x - PORT] : x; };
  if (s.kind) s.test = (uint8_t)name(s.test);
  for (Statement *x = s.body; x != s.body + s.n; x++) {
    if (x->op == NOTIFY) continue;
    x->a = (uint8_t)name(x->a);
    if (x->op > 2) x->b = name(x->b);
  }
  return s;
}

// The segments of each thread: the model's, and mapped ones for a thread with ports.
struct Code {
  std::vector<Segment> own[32];
  const Segment *of[32];

  void map(const Model &m) {
    for (int k = 0; k < m.t; k++) {
      of[k] = m.segment;
      if (std::count(m.port[k], m.port[k] + 8, UNUSED) == 8) continue;
      own[k].clear();
      for (int i = 0; i < m.n; i++) own[k].push_back(mapped(m.segment[i], m.port[k]));
      of[k] = own[k].data();
    }
  }
};

// The statements of a segment on the variables; notify is called with each event.
template <class Notify>
static inline void execute(const Segment &s, uint32_t *v, Notify notify) {
  for (const Statement *x = s.body, *end = x + s.n; x != end; x++) switch (x->op) {
      case 1: v[x->a] = x->b; break;
      case 2: v[x->a] += x->b; break;
      case 3: v[x->a] = v[x->b]; break;
      case 4: v[x->a] += v[x->b]; break;
      case 5: v[x->a] -= v[x->b]; break;
      case NOTIFY: notify(x->a); break;
    }
}

static inline uint8_t next_segment(const Segment &s, const uint32_t *v) { return s.test == NO_TEST || v[s.test] < s.limit ? s.a : s.b; }

// Standard input, at most 65,536 bytes of it. A refused file prints its line.
static inline bool accepted(Model &m) {
  static uint8_t file[65536];
  int number = read_model(file, fread(file, 1, sizeof file, stdin), m);
  if (number) printf("refused %d\n", number);
  return number == 0;
}

static inline void print_sheet(const Model &m, const Run &run) {
  static const char *words[] = {"ended", "overrun", "ready", "wait"};
  for (int i = 0; i < m.v; i++) printf("v %d %" PRIu32 "\n", i, run.variable[i]);
  for (int k = 0; k < m.t; k++) {
    const Record &x = run.thread[k];
    printf("t %d %d %s ", k, x.segment, words[x.state]);
    if (x.state == WAITING) printf("%d ", x.event);
    printf("%" PRIu64 " %" PRIu32 "\n", x.time, x.delta);
  }
  printf("n %" PRIu64 "\n", run.n);
  if (run.spent) printf("spent\n");
}
