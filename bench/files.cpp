// What the proved library is measured against, by plain loops: the reader of bench/peer, and the tables of a model.
#include "model.h"
#include <algorithm>

static Model m;

static const uint64_t NEVER = ~0ull, FAR = 1000000001ull << 10;

static uint64_t plus(uint64_t a, uint64_t d) {
  if (a >= FAR || d >= FAR) return FAR;
  return d < 1024 ? a + d : (a >> 10 << 10) + d;
}

static void distances(uint64_t *w) {
  int n = m.n;
  for (int r = 0; r < n; r++) {
    const Segment &g = m.segment[r];
    uint64_t step = g.kind == 0 ? FAR : g.kind == 2 || g.delay == 0 ? 1 : (uint64_t)g.delay << 10;
    for (int s = 0; s < n; s++) w[r * n + s] = r == s ? 0 : g.kind && (g.a == s || g.b == s) ? step : FAR;
  }
  for (int k = 0; k < n; k++)
    for (int r = 0; r < n; r++) {
      uint64_t a = w[r * n + k];
      if (a < FAR)
        for (int s = 0; s < n; s++) w[r * n + s] = std::min(w[r * n + s], plus(a, w[k * n + s]));
    }
  for (int i = 0; i < n * n; i++)
    if (w[i] >= FAR) w[i] = NEVER;
}

extern "C" uint8_t native_read(const uint8_t *p, size_t len) { return read_model(p, len, m); }

extern "C" uint8_t native_load(const uint8_t *p, size_t len, uint64_t *w, size_t words) {
  int number = read_model(p, len, m);
  if (number) return number;
  if (words < (size_t)(m.n * m.n)) return 16;
  distances(w);
  return 0;
}

// The file of a model held as numbers: judged, then written.
static bool is_held_name(uint32_t x, uint32_t v) { return x < v || is_port(x); }

static uint8_t held_ports(const uint32_t *h) {
  uint8_t used = 0;
  for (int p = 0; p < 8; p++) used |= (h[1 + p] != UNUSED) << p;
  return used;
}

// The ports that a segment names, a bit each.
static uint8_t held_names(const uint32_t *g) {
  uint8_t ports = 0;
  auto add = [&](uint32_t x) { ports |= is_port(x) ? 1u << (x - PORT) : 0; };
  if (g[0]) add(g[5]);
  for (const uint32_t *s = g + 8; s < g + 8 + 3 * g[7]; s += 3) {
    if (s[0] == NOTIFY) continue;
    add(s[1]);
    if (s[0] > 2) add(s[2]);
  }
  return ports;
}

// Whether a thread reaches a port that it leaves unused.
static bool held_lack(const uint32_t *x) {
  uint32_t n = x[3], t = x[4];
  uint8_t ports[64];
  for (uint32_t i = 0; i < n; i++) ports[i] = held_names(x + 5 + 104 * i);
  for (bool changed = true; changed;) {
    changed = false;
    for (uint32_t i = 0; i < n; i++) {
      const uint32_t *g = x + 5 + 104 * i;
      uint8_t all = g[0] ? ports[i] | ports[g[3]] | ports[g[4]] : ports[i];
      changed |= all != ports[i];
      ports[i] = all;
    }
  }
  for (uint32_t k = 0; k < t; k++) {
    const uint32_t *h = x + 5 + 104 * n + 9 * k;
    if (ports[h[0]] & ~held_ports(h)) return true;
  }
  return false;
}

static int judged(const uint32_t *x, size_t count) {
  uint32_t v = x[1], e = x[2], n = x[3], t = x[4];
  if (count < 5 + 104ull * n + 9ull * t) return 11;
  if (x[0] < 1 || x[0] > 1000000000 || v > 64 || e > 32) return 4;
  for (uint32_t i = 0; i < n; i++) {
    const uint32_t *g = x + 5 + 104 * i;
    if (g[7] > 32) return 3;
    if (i >= 64) return 4;
    if (g[0] > 2 || (g[0] == 0 && (g[1] | g[2] | g[3] | g[4] | g[5] | g[6])) || (g[0] == 1 && g[1]) || (g[0] == 2 && g[2])) return 5;
    if (g[0] == 1 && g[2] > 1000000000) return 5;
    if (g[0] && g[5] == 255 && (g[4] != g[3] || g[6])) return 5;
    if ((g[0] == 2 && g[1] >= e) || (g[0] && g[5] != 255 && !is_held_name(g[5], v))) return 7;
    for (const uint32_t *s = g + 8; s < g + 8 + 3 * g[7]; s += 3) {
      if (s[0] < 1 || s[0] > 6 || (s[0] == 6 && s[2])) return 6;
      if (s[0] == 6 ? s[1] >= e : !is_held_name(s[1], v) || (s[0] > 2 && !is_held_name(s[2], v))) return 7;
    }
  }
  if (!n || !t) return 2;
  for (uint32_t k = 0; k < t; k++) {
    if (k >= 32) return 4;
    const uint32_t *h = x + 5 + 104 * n + 9 * k;
    for (int p = 0; p < 8; p++)
      if (h[1 + p] != UNUSED && h[1 + p] >= v) return 17;
  }
  for (uint32_t i = 0; i < n; i++) {
    const uint32_t *g = x + 5 + 104 * i;
    if (g[0] && (g[3] >= n || g[4] >= n)) return 8;
  }
  for (uint32_t k = 0; k < t; k++)
    if (x[5 + 104 * n + 9 * k] >= n) return 8;
  return held_lack(x) ? 18 : 0;
}

static uint8_t *little(uint8_t *p, uint32_t x, int n) {
  for (; n--; x >>= 8) *p++ = (uint8_t)x;
  return p;
}

extern "C" uint8_t native_write(const uint32_t *x, size_t count, uint8_t *out, size_t room, uint64_t *length, size_t) {
  if (int number = judged(x, count)) return (uint8_t)number;
  uint32_t n = x[3], t = x[4];
  size_t size = 14 + 5 * t;
  for (uint32_t i = 0; i < n; i++) size += 17 + 6 * x[5 + 104 * i + 7];
  for (uint32_t k = 0; k < t; k++) size += held_ports(x + 5 + 104 * n + 9 * k) ? 12 : 0;
  if (room < size) return 16;
  uint8_t *p = little(little(little(little(little(out, 10, 2), 1, 2), x[0], 4), x[1], 1), x[2], 1);
  for (uint32_t i = 0; i < n; i++) {
    const uint32_t *g = x + 5 + 104 * i;
    p = little(little(little(little(little(p, 17 + 6 * g[7], 2), 2, 2), g[0], 1), g[1], 1), g[2], 4);
    p = little(little(little(little(p, g[3], 1), g[4], 1), g[5], 1), g[6], 4);
    for (const uint32_t *s = g + 8; s < g + 8 + 3 * g[7]; s += 3) p = little(little(little(p, s[0], 1), s[1], 1), s[2], 4);
  }
  for (uint32_t k = 0; k < t; k++) {
    const uint32_t *h = x + 5 + 104 * n + 9 * k;
    p = little(little(little(p, 5, 2), 3, 2), h[0], 1);
    if (!held_ports(h)) continue;
    p = little(little(p, 12, 2), 5, 2);
    for (int i = 0; i < 8; i++) p = little(p, h[1 + i], 1);
  }
  little(little(p, 4, 2), 4, 2);
  *length = size;
  return 0;
}
