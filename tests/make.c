#include "make.h"

#include <string.h>

static uint64_t state;

void set_seed(uint64_t seed) { state = seed; }

int below(int n) { /* splitmix64 */
  uint64_t z = state += 0x9E3779B97F4A7C15u;
  z = (z ^ (z >> 30)) * 0xBF58476D1CE4E5B9u;
  z = (z ^ (z >> 27)) * 0x94D049BB133111EBu;
  return (int)((z ^ (z >> 31)) % (uint64_t)n);
}

/* the numbers below n, in any order */
static void shuffled(int *name, int n) {
  for (int i = 0; i < n; i++) name[i] = i;
  for (int i = n - 1; i > 0; i--) {
    int j = below(i + 1), x = name[i];
    name[i] = name[j], name[j] = x;
  }
}

/* ---- plates */

static int joined(const plate *p, int a, int b) {
  for (int d = 0; d < 2 * p->e; d++)
    if (p->end[d] == a && p->end[d ^ 1] == b) return 1;
  return a == b;
}

static void join(plate *p, int a, int b) {
  if (p->e < MOST_E && !joined(p, a, b)) p->end[2 * p->e] = a, p->end[2 * p->e + 1] = b, p->e++;
}

static void join_any(plate *p, int most) {
  while (p->e < most) join(p, below(p->v), below(p->v));
}

static void remove_channel(plate *p, int k) {
  p->e--;
  p->end[2 * k] = p->end[2 * p->e], p->end[2 * k + 1] = p->end[2 * p->e + 1];
}

static void make_ring(plate *p, int ports) {
  p->v = ports, p->e = 0;
  for (int q = 0; q < ports; q++) join(p, q, (q + 1) % ports);
}

/* each new port is joined to the corners of a triangle: 3V - 6 channels */
static void make_maximal(plate *p, int ports) {
  int triangle[2 * MOST_V][3] = {{0, 1, 2}, {0, 1, 2}}, n = 2;
  make_ring(p, 3);
  for (p->v = ports; n < 2 * ports - 4; n += 2) {
    int q = n / 2 + 2, *t = triangle[below(n)], a = t[0], b = t[1], c = t[2];
    int more[3][3] = {{a, b, q}, {a, c, q}, {b, c, q}};
    join(p, a, q), join(p, b, q), join(p, c, q);
    memcpy(t, more[0], sizeof more[0]);
    memcpy(triangle[n], more[1], 2 * sizeof more[1]);
  }
}

/* a ring, then chains of new ports from an old port to another */
static void make_ears(plate *p, int ports, int chains) {
  make_ring(p, 3 + below(4));
  for (int i = 0; i < chains; i++) {
    int a = below(p->v), b = below(p->v), between = p->v < ports ? below(ports - p->v + 1) % 4 : 0;
    if (a == b) continue;
    for (; between > 0; between--) join(p, a, p->v), a = p->v++;
    join(p, a, b);
  }
}

static void make_grid(plate *p, int wide, int high) {
  p->v = wide * high, p->e = 0;
  for (int q = 0; q < p->v; q++) {
    if (q % wide + 1 < wide) join(p, q, q + 1);
    if (q + wide < p->v) join(p, q, q + wide);
  }
}

/* chords from port a to port b of a ring, none across another */
static void join_chords(plate *p, int a, int b) {
  if (b - a < 2) return;
  int c = a + 1 + below(b - a - 1);
  join(p, a, b), join_chords(p, a, c), join_chords(p, c, b);
}

/* other names, another order, some channels the other way round; the turns go with their darts */
static void rename_all(sheet *s) {
  static sheet old;
  int port[MOST_V], channel[MOST_E], dart[2 * MOST_E];
  old = *s;
  shuffled(port, old.p.v);
  shuffled(channel, old.p.e);
  for (int k = 0; k < old.p.e; k++) {
    int turned = below(2);
    dart[2 * k] = 2 * channel[k] + turned, dart[2 * k + 1] = dart[2 * k] ^ 1;
  }
  for (int d = 0; d < 2 * old.p.e; d++) {
    s->p.end[dart[d]] = port[old.p.end[d]];
    s->turn[dart[d]] = dart[old.turn[d]];
  }
}

static void rename_plate(plate *p) {
  static sheet s; /* its turns are all 0: any dart */
  s.p = *p;
  memset(s.turn, 0, sizeof s.turn);
  rename_all(&s);
  *p = s.p;
}

void make_plate(plate *p) {
  int size = below(20) ? 3 + below(14) : 3 + below(45);
  switch (below(7)) {
    case 0: make_maximal(p, size); break;
    case 1:
      make_maximal(p, size);
      for (int k = below(1 + p->e / 3); k > 0 && p->e > 3; k--) remove_channel(p, below(p->e));
      break;
    case 2:
      make_maximal(p, size);
      for (int k = below(p->e); k > 0 && p->e > 3; k--) remove_channel(p, below(p->e));
      for (int k = 1 + below(3); k > 0; k--) join(p, below(p->v), below(p->v));
      break;
    case 3:
    case 4: make_ears(p, size, 1 + below(size)); break;
    default:
      p->v = 3 + below(6), p->e = 0;
      for (int k = 3 + below(p->v * p->v); k > 0; k--) join(p, below(p->v), below(p->v));
  }
  rename_plate(p);
}

static void begin_large(int kind, plate *p) {
  int wide = 10 + below(5);
  switch (kind) {
    case MAXIMAL:
    case MAXIMAL_AND_ONE: make_maximal(p, 88 + below(MOST_V - 87)); break;
    case FULLEST: make_maximal(p, MOST_V); break;
    case GRID:
    case GRID_AND_ONE: make_grid(p, wide, MOST_V / wide - below(2)); break;
    case CHORDS:
      make_ring(p, 130 + below(MOST_V - 129));
      join_chords(p, 0, p->v - 1);
      for (int k = below(p->e - LARGE + 1); k > 0; k--) remove_channel(p, p->v + below(p->e - p->v));
      break;
    case DENSE: make_ring(p, 36 + below(MOST_V - 35)); break; /* 36 ports have 630 pairs */
    default: make_ears(p, MOST_V, 150);
  }
}

void make_large(int kind, plate *p) {
  begin_large(kind, p);
  rename_plate(p);
  if (kind == FULLEST) join_any(p, MOST_E);
  if (kind == MAXIMAL_AND_ONE || kind == GRID_AND_ONE) join_any(p, p->e + 1);
  if (kind == DENSE) join_any(p, LARGE + below(MOST_E - LARGE + 1));
  join_any(p, LARGE);
  if (kind != GRID_AND_ONE && below(2)) rename_plate(p); /* else the channels that were added have the highest numbers */
}

/* ---- sheets */

enum { PIECES = 16, BARE_PORTS = 4 };
static sheet piece[PIECES] = {{{3, 3, {0, 1, 1, 2, 2, 0}}, {5, 2, 1, 4, 3, 0}}}; /* at first, a triangle */
static int pieces = 1;

void keep_piece(const sheet *s) {
  if (2 * s->p.v + BARE_PORTS <= MOST_V && 2 * s->p.e <= MOST_E) piece[pieces++ % PIECES] = *s;
}

static const sheet *any_piece(void) { return &piece[below(pieces < PIECES ? pieces : PIECES)]; }

/* another piece beside what is there */
static void put_beside(sheet *s, const sheet *other) {
  int ports = s->p.v, darts = 2 * s->p.e;
  for (int d = 0; d < 2 * other->p.e; d++) {
    s->p.end[darts + d] = ports + other->p.end[d];
    s->turn[darts + d] = darts + other->turn[d];
  }
  s->p.v += other->p.v, s->p.e += other->p.e;
}

/* two darts that leave two ports now leave one, with one ring; the last port takes the name that is free */
static void make_one_port(sheet *s, int x, int y) {
  int turn = s->turn[x], stays = s->p.end[x], goes = s->p.end[y], last = --s->p.v;
  s->turn[x] = s->turn[y], s->turn[y] = turn;
  for (int d = 0; d < 2 * s->p.e; d++)
    if (s->p.end[d] == goes) s->p.end[d] = stays;
  for (int d = 0; d < 2 * s->p.e; d++)
    if (s->p.end[d] == last) s->p.end[d] = goes;
}

/* the darts that leave a port; how many */
static int darts_of(const plate *p, int port, int *dart) {
  int n = 0;
  for (int d = 0; d < 2 * p->e; d++)
    if (p->end[d] == port) dart[n++] = d;
  return n;
}

static void turn_any(sheet *s, int port) {
  int dart[2 * MOST_E], order[2 * MOST_E], n = darts_of(&s->p, port, dart);
  shuffled(order, n);
  for (int i = 0; i < n; i++) s->turn[dart[order[i]]] = dart[order[(i + 1) % n]];
}

void reverse_ring(sheet *s) {
  int dart[2 * MOST_E], old[2 * MOST_E], n = darts_of(&s->p, below(s->p.v), dart);
  memcpy(old, s->turn, sizeof old);
  for (int i = 0; i < n; i++) s->turn[old[dart[i]]] = dart[i];
}

static void make_any(sheet *s) {
  if (below(16)) make_plate(&s->p);
  else make_large(below(LARGE_KINDS), &s->p);
  for (int q = 0; q < s->p.v; q++) turn_any(s, q);
}

static void put_together(int kind, sheet *s) {
  *s = *any_piece();
  int darts = 2 * s->p.e;
  if (kind == BARE) s->p.v += 1 + below(BARE_PORTS);
  if (kind != BARE) put_beside(s, any_piece());
  if (kind == CUT) make_one_port(s, below(darts), darts + below(2 * s->p.e - darts));
  int turned = below(3), one = below(s->p.v);
  for (int q = 0; q < s->p.v; q++)
    if (turned == 2 || (turned == 1 && q == one)) turn_any(s, q);
  rename_all(s);
}

void make_sheet(int kind, sheet *s) {
  if (kind == ANY) make_any(s);
  else put_together(kind, s);
}

/* ---- files */

static void put16(uint8_t *at, int number) { at[0] = (uint8_t)(number % 256), at[1] = (uint8_t)(number / 256); }

static void put_plate(const char *mark, const plate *p, uint8_t *file) {
  memcpy(file, mark, 3);
  put16(file + 3, 1);
  file[5] = (uint8_t)p->v;
  put16(file + 6, p->e);
  for (int d = 0; d < 2 * p->e; d++) file[8 + d] = (uint8_t)p->end[d];
}

size_t plate_file(const plate *p, uint8_t *file) {
  put_plate("FPL", p, file);
  return 8 + PAIR_BYTES * (size_t)p->e;
}

size_t sheet_file(const sheet *s, uint8_t *file) {
  put_plate("FTS", &s->p, file);
  for (int d = 0; d < 2 * s->p.e; d++) put16(file + 8 + 2 * s->p.e + 2 * d, s->turn[d]);
  return 8 + SHEET_BYTES * (size_t)s->p.e;
}

/* another number of channels: none to two, one too many, far too many, one more or less */
static int other_channels(int e) {
  int number[] = {below(3), MOST_E + 1, 65535, e + 1, e - 1};
  return number[below(5)];
}

/* bytes behind the end */
static size_t lengthen(uint8_t *file, size_t n) {
  size_t longer = n + 1 + (size_t)below(100);
  if (longer > MOST_BYTES) longer = MOST_BYTES;
  if (longer > n) memset(file + n, below(256), longer - n);
  return longer;
}

/* the turn of this dart and that of the next dart of its port are exchanged: two rings */
static void exchange_turns(uint8_t *file, int e, int d) {
  uint8_t *turns = file + 8 + 2 * e, turn[2];
  int next = d;
  do next = (next + 1) % (2 * e);
  while (file[8 + next] != file[8 + d]);
  memcpy(turn, turns + 2 * d, 2);
  memcpy(turns + 2 * d, turns + 2 * next, 2);
  memcpy(turns + 2 * next, turn, 2);
}

size_t damage(uint8_t *file, size_t n, int e, int channel_bytes) {
  uint8_t *pair = file + 8 + 2 * below(e), *other = file + 8 + 2 * below(e);
  int d = below(2 * e);
  uint8_t *turn = file + 8 + 2 * e + 2 * d;
  switch (below(channel_bytes == SHEET_BYTES ? 16 : 13)) {
    case 0: return (size_t)below(9);
    case 1: return (size_t)below((int)n + 1);
    case 2: return lengthen(file, n);
    case 3: file[below(3)] ^= (uint8_t)(1 + below(255)); return n;
    case 4: file[3 + below(2)] ^= (uint8_t)(1 + below(255)); return n;
    case 5: file[5] = (uint8_t)(below(2) ? below(3) : MOST_V + 1 + below(255 - MOST_V)); return n;
    case 6: file[5] = (uint8_t)(file[5] + 1 - 2 * below(2)); return n;
    case 7: put16(file + 6, other_channels(e)); return n;
    case 8: put16(file + 6, MOST_E + 1); return 8 + (size_t)channel_bytes * (MOST_E + 1);
    case 9: pair[below(2)] = (uint8_t)below(256); return n;
    case 10: pair[0] = pair[1]; return n;
    case 11: pair[0] = other[1], pair[1] = other[0]; return n;
    case 12: memcpy(pair, other, 2); return n;
    case 13: put16(turn, 2 * e + below(65536 - 2 * e)); return n;
    case 14: put16(turn, below(2 * e)); return n;
    default: exchange_turns(file, e, d); return n;
  }
}
