// Requests by plain loops, to measure the proved ones against. docs/RULES.md, section 6; tables and state are made as the proved library makes them, fresh for each list.
#include "model.h"
#include <algorithm>
#include <cstring>

typedef uint64_t B;  // a bound: time x 65,536 + delta, or NEVER
static const B NEVER = ~0ull;
static const uint64_t ONES = ~0ull, FAR = 1000000001ull << 10;

static B plus(B x, B d) { return x == NEVER || d == NEVER ? NEVER : d < 65536 ? x + d : (x >> 16 << 16) + d; }
static B at(uint64_t t, uint32_t d) { return t << 16 | d; }

// What a segment names, a bit each: variables named directly, and ports.
struct Names {
  uint64_t variables;
  uint8_t ports;

  void add(uint32_t x) {
    if (is_port(x)) ports |= 1u << (x - PORT);
    else variables |= 1ull << x;
  }

  // The variables that they are in a thread with these ports; an unused port names nothing.
  uint64_t mapped(const uint8_t *port) const {
    uint64_t out = variables;
    for (uint32_t left = ports; left; left &= left - 1) {
      uint8_t v = port[__builtin_ctz(left)];
      if (v != UNUSED) out |= 1ull << v;
    }
    return out;
  }
};

struct Rec { uint8_t seg, st, ev; uint64_t t; uint32_t d; };
struct Pair { uint8_t e; uint64_t t; uint32_t d; };

struct Kit {
  Model m;
  Code code;
  B dist[64][64];
  uint64_t uses[32][64], writes[32][64];  // of each thread in each segment, after mapping
  uint32_t tells[64];
  uint32_t v[64];
  Rec r[32];
  Pair log[160];
  int count;

  void tables() {
    int n = m.n;
    code.map(m);
    static uint64_t w[64 * 64];
    for (int i = 0; i < n; i++) {
      const Segment &g = m.segment[i];
      uint64_t step = g.kind == 0 ? FAR : g.kind == 2 || g.delay == 0 ? 1 : (uint64_t)g.delay << 10;
      for (int j = 0; j < n; j++) w[i * n + j] = i == j ? 0 : g.kind && (g.a == j || g.b == j) ? step : FAR;
    }
    for (int k = 0; k < n; k++)
      for (int i = 0; i < n; i++) {
        uint64_t a = w[i * n + k];
        if (a >= FAR) continue;
        for (int j = 0; j < n; j++) {
          uint64_t b = w[k * n + j], c = b >= FAR ? FAR : b < 1024 ? a + b : (a >> 10 << 10) + b;
          if (c < w[i * n + j]) w[i * n + j] = c;
        }
      }
    for (int i = 0; i < n; i++)
      for (int j = 0; j < n; j++) dist[i][j] = w[i * n + j] >= FAR ? NEVER : at(w[i * n + j] >> 10, w[i * n + j] & 1023);
    for (int i = 0; i < n; i++) {
      const Segment &g = m.segment[i];
      Names used{}, written{};
      if (g.kind && g.test != NO_TEST) used.add(g.test);
      tells[i] = 0;
      for (int j = 0; j < g.n; j++) {
        const Statement &s = g.body[j];
        if (s.op == NOTIFY) { tells[i] |= 1u << s.a; continue; }
        written.add(s.a);
        if (s.op >= 3) used.add(s.b);
      }
      for (int k = 0; k < m.t; k++) {
        writes[k][i] = written.mapped(m.port[k]);
        uses[k][i] = used.mapped(m.port[k]) | writes[k][i];
      }
    }
  }

  // Whether thread i in segment r conflicts with thread j in segment s.
  bool conflict(int i, int r, int j, int s) { return uses[i][r] & uses[j][s] & (writes[i][r] | writes[j][s]); }

  void fresh() {
    memset(v, 0, sizeof v);
    count = 0;
    for (int k = 0; k < m.t; k++) r[k] = {m.first[k], READY, 0, 0, 0};
  }

  bool live(int k) { return r[k].st == READY || r[k].st == WAITING; }

  const Pair *heard(int k) {
    const Pair *best = 0;
    for (int i = 0; i < count; i++)
      if (log[i].e == r[k].ev && at(log[i].t, log[i].d) >= at(r[k].t, r[k].d) && (!best || at(log[i].t, log[i].d) < at(best->t, best->d))) best = &log[i];
    return best;
  }

  B forecast(const B *x, int e) {
    B b = NEVER;
    for (int j = 0; j < m.t; j++)
      if (live(j))
        for (int s = 0; s < m.n; s++)
          if (tells[s] >> e & 1) b = std::min(b, plus(x[j], dist[r[j].seg][s]));
    return b;
  }

  void earliest(B *x) {
    for (int k = 0; k < m.t; k++) {
      x[k] = NEVER;
      if (r[k].st == READY) x[k] = at(r[k].t, r[k].d);
      if (r[k].st == WAITING)
        if (const Pair *p = heard(k)) x[k] = at(p->t, p->d) + 1;
    }
    for (bool changed = true; changed;) {
      changed = false;
      for (int k = 0; k < m.t; k++)
        if (r[k].st == WAITING) {
          B b = plus(std::max(forecast(x, r[k].ev), at(r[k].t, r[k].d)), 1);
          if (b < x[k]) x[k] = b, changed = true;
        }
    }
  }

  B floor() {
    B f = NEVER;
    for (int k = 0; k < m.t; k++)
      if (r[k].st == READY) f = std::min(f, at(r[k].t, r[k].d));
    return f;
  }

  bool hazard(int i) {
    B x[32], c = at(r[i].t, r[i].d);
    earliest(x);
    for (int j = 0; j < m.t; j++)
      if (j != i && live(j))
        for (int s = 0; s < m.n; s++)
          if (conflict(i, r[i].seg, j, s)) {
            B b = plus(x[j], dist[r[j].seg][s]);
            if (b < c || (b == c && j < i)) return true;
          }
    return false;
  }

  void wake(int k, uint64_t t, uint32_t d) {
    if (d < 1023) r[k].st = READY, r[k].d = d + 1;
    else r[k].st = OVERRUN, r[k].d = d;
    r[k].t = t;
    r[k].ev = 0;
  }

  int request(unsigned k, uint64_t *a) {
    if (k >= (unsigned)m.t) return 10;
    if (r[k].st != READY) return 12;
    if (r[k].t > m.horizon) return 13;
    if (hazard(k)) return 14;
    const Segment &g = code.of[k][r[k].seg];
    uint64_t t = r[k].t;
    uint32_t d = r[k].d;
    int full = count;
    for (int i = 0; i < g.n; i++)
      if (g.body[i].op == NOTIFY) {
        bool held = false;
        for (int j = 0; j < full; j++) held |= log[j].e == g.body[i].a && log[j].t == t && log[j].d == d;
        if (!held) log[full++] = {g.body[i].a, t, d};
      }
    if (full > 128 || (floor() < at(t, d) && full > 96)) return 15;
    count = full;
    a[1] = r[k].seg, a[2] = t, a[3] = d;
    execute(g, v, [](uint8_t) {});
    if (g.kind == 0) r[k].st = ENDED;
    else {
      r[k].seg = next_segment(g, v);
      if (g.kind == 2) r[k].st = WAITING, r[k].ev = g.event;
      else if (g.delay) r[k].t += g.delay, r[k].d = 0;
      else wake(k, t, d);
    }
    for (bool heard_any = true; heard_any;) {
      heard_any = false;
      for (int j = 0; j < m.t; j++)
        if (r[j].st == WAITING)
          if (const Pair *p = heard(j)) {
            B x[32];
            earliest(x);
            if (forecast(x, r[j].ev) >= at(p->t, p->d)) wake(j, p->t, p->d), heard_any = true;
          }
    }
    B f = floor();
    int left = 0;
    for (int i = 0; i < count; i++)
      if (f != NEVER && at(log[i].t, log[i].d) >= f) log[left++] = log[i];
    count = left;
    return 0;
  }
};

static Kit kit;

// The answers of a list, 4 words each; how many were granted, and of these how many later than the floor.
extern "C" uint8_t native_replay(const uint8_t *p, size_t len, const uint8_t *ks, size_t n, uint64_t *answers, uint64_t *granted, uint64_t *ahead) {
  int number = read_model(p, len, kit.m);
  if (number) return number;
  kit.tables();
  kit.fresh();
  *granted = *ahead = 0;
  for (size_t i = 0; i < n; i++) {
    uint64_t *a = answers + 4 * i;
    a[1] = a[2] = a[3] = 0;
    B f = kit.floor();
    a[0] = kit.request(ks[i], a);
    if (a[0] == 0) *granted += 1, *ahead += at(a[2], a[3]) > f;
  }
  return 0;
}
