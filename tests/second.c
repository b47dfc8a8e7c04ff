#include "second.h"

#include <stdio.h>
#include <string.h>

static refusal refuse(int number, int place) {
  refusal r = {number, place};
  return r;
}

static int same_pair(const plate *p, int j, int k) {
  int a = p->end[2 * j], b = p->end[2 * j + 1], c = p->end[2 * k], d = p->end[2 * k + 1];
  return (a == c && b == d) || (a == d && b == c);
}

/* 1 to 9 */
static refusal read_file(const uint8_t *f, size_t n, const char *mark, size_t bytes_a_channel, plate *p) {
  if (n < 8) return refuse(1, 0);
  if (memcmp(f, mark, 3) != 0) return refuse(2, 0);
  if (f[3] != 1 || f[4] != 0) return refuse(3, 0);
  p->v = f[5];
  p->e = f[6] + 256 * f[7];
  if (p->v < 3 || p->v > MOST_V) return refuse(4, 0);
  if (p->e < 3 || p->e > MOST_E) return refuse(5, 0);
  if (n != 8 + bytes_a_channel * (size_t)p->e) return refuse(6, 0);
  for (int d = 0; d < 2 * p->e; d++) p->end[d] = f[8 + d];
  for (int k = 0; k < p->e; k++)
    if (p->end[2 * k] >= p->v || p->end[2 * k + 1] >= p->v) return refuse(7, k);
  for (int k = 0; k < p->e; k++)
    if (p->end[2 * k] == p->end[2 * k + 1]) return refuse(8, k);
  for (int k = 0; k < p->e; k++)
    for (int j = 0; j < k; j++)
      if (same_pair(p, j, k)) return refuse(9, k);
  return refuse(0, 0);
}

/* marks every port that can be reached from a port marked in set without entering one that is barred */
static void spread(const plate *p, char *set, const char *barred) {
  for (int more = 1; more;) {
    more = 0;
    for (int d = 0; d < 2 * p->e; d++) {
      int from = p->end[d], to = p->end[d ^ 1];
      if (set[from] && !set[to] && !barred[to]) set[to] = 1, more = 1;
    }
  }
}

refusal second_read_plate(const uint8_t *f, size_t n, plate *p) {
  refusal r = read_file(f, n, "FPL", 2, p);
  if (r.number) return r;
  char set[MOST_V] = {0}, barred[MOST_V] = {0};
  set[0] = 1;
  spread(p, set, barred);
  for (int q = 0; q < p->v; q++)
    if (!set[q]) return refuse(10, q);
  for (int c = 0; c < p->v; c++) {
    memset(set, 0, sizeof set);
    memset(barred, 0, sizeof barred);
    barred[c] = 1;
    set[c == 0] = 1;
    spread(p, set, barred);
    for (int q = 0; q < p->v; q++)
      if (q != c && !set[q]) return refuse(11, c);
  }
  return r;
}

/* ---- laying */

/* the path from x to y by channels marked in ok, between only through ports marked in through; its length */
static int find_path(const plate *p, const char *ok, const char *through, int x, int y, int *out) {
  int far[MOST_V];
  for (int q = 0; q < p->v; q++) far[q] = -1;
  far[y] = 0;
  for (int step = 0; far[x] < 0; step++)
    for (int d = 0; d < 2 * p->e; d++) {
      int from = p->end[d], to = p->end[d ^ 1];
      if (ok[d / 2] && far[to] == step && far[from] < 0 && (through[from] || from == x)) far[from] = step + 1;
    }
  int n = 0;
  for (int at = x; at != y;) {
    int best = -1;
    for (int d = 0; d < 2 * p->e; d++)
      if (ok[d / 2] && p->end[d] == at && far[p->end[d ^ 1]] == far[at] - 1)
        if (best < 0 || p->end[d ^ 1] < p->end[best ^ 1]) best = d;
    out[n++] = best;
    at = p->end[best ^ 1];
  }
  return n;
}

/* land i becomes this cycle of darts, from its smallest, and the turns follow it */
static void put_land(layout *l, int i, const int *cycle, int n) {
  int least = 0;
  for (int k = 0; k < n; k++)
    if (cycle[k] < cycle[least]) least = k;
  for (int k = 0; k < n; k++) l->dart[i][k] = cycle[(least + k) % n];
  l->length[i] = n;
  for (int k = 0; k < n; k++) l->turn[cycle[k] ^ 1] = cycle[(k + 1) % n];
}

static void reverse_path(const int *q, int n, int *out) {
  for (int k = 0; k < n; k++) out[k] = q[n - 1 - k] ^ 1;
}

/* what a round begins with */
typedef struct {
  char laid[MOST_V];
  char visits[MOST_E][MOST_V]; /* the land visits the port */
} state;

static void find_state(const plate *p, const layout *l, state *s) {
  memset(s->laid, 0, sizeof s->laid);
  memset(s->visits, 0, sizeof s->visits[0] * (size_t)l->lands);
  for (int i = 0; i < l->lands; i++)
    for (int k = 0; k < l->length[i]; k++) {
      int port = p->end[l->dart[i][k]];
      s->laid[port] = s->visits[i][port] = 1;
    }
}

typedef struct {
  int name, contacts, fits, land;
  int contact[MOST_V];
  char port[MOST_V], channel[MOST_E];
} fragment;

/* the fragment of the unlaid channel k */
static void find_fragment(const plate *p, const layout *l, const state *s, int k, fragment *f) {
  const char *laid = s->laid;
  char touched[MOST_V] = {0};
  memset(f, 0, sizeof *f);
  f->name = k;
  f->channel[k] = 1;
  int a = p->end[2 * k], b = p->end[2 * k + 1];
  if (!laid[a] || !laid[b]) {
    f->port[laid[a] ? b : a] = 1;
    spread(p, f->port, laid);
    for (int j = 0; j < p->e; j++) f->channel[j] = f->port[p->end[2 * j]] || f->port[p->end[2 * j + 1]];
  }
  for (int d = 0; d < 2 * p->e; d++)
    if (f->channel[d / 2]) touched[p->end[d]] = 1;
  for (int q = 0; q < p->v; q++)
    if (laid[q] && touched[q]) f->contact[f->contacts++] = q;
  for (int i = 0; i < l->lands; i++) {
    int all = 1;
    for (int c = 0; c < f->contacts; c++) all &= s->visits[i][f->contact[c]];
    if (all && f->fits++ == 0) f->land = i;
  }
}

static void split(const plate *p, layout *l, const fragment *f) {
  int x = f->contact[0], y = f->contact[1], i = f->land, n = l->length[i];
  int q[MOST_E], turned[2 * MOST_E], cycle[2 * MOST_E];
  laid_path *made = &l->path[l->paths++];
  int m = find_path(p, f->channel, f->port, x, y, q);
  made->fragment = f->name;
  made->land = i;
  made->length = m;
  memcpy(made->dart, q, sizeof(int) * (size_t)m);
  int at = 0, to = 0;
  while (p->end[l->dart[i][at]] != x) at++;
  for (int k = 0; k < n; k++) turned[k] = l->dart[i][(at + k) % n];
  while (p->end[turned[to]] != y) to++;
  memcpy(cycle, q, sizeof(int) * (size_t)m); /* the path, then B */
  memcpy(cycle + m, turned + to, sizeof(int) * (size_t)(n - to));
  put_land(l, i, cycle, m + n - to);
  reverse_path(q, m, cycle); /* the path reversed, then A */
  memcpy(cycle + m, turned, sizeof(int) * (size_t)to);
  put_land(l, l->lands++, cycle, m + to);
}

void second_lay(const plate *p, uint32_t n, layout *l) {
  char ok[MOST_E], through[MOST_V];
  int back[MOST_E];
  l->paths = 0;
  for (int d = 0; d < 2 * p->e; d++) l->turn[d] = MISSING;
  memset(ok, 1, sizeof ok);
  memset(through, 1, sizeof through);
  ok[0] = 0;
  l->cycle[0] = 0;
  l->cycle_length = 1 + find_path(p, ok, through, p->end[1], p->end[0], l->cycle + 1);
  reverse_path(l->cycle, l->cycle_length, back);
  put_land(l, 0, l->cycle, l->cycle_length);
  put_land(l, 1, back, l->cycle_length);
  l->lands = 2;
  for (;;) {
    char met[MOST_E] = {0};
    int rest = 0, stuck = -1;
    static state s;
    static fragment lowest, single, f;
    lowest.name = single.name = -1;
    find_state(p, l, &s);
    for (int k = 0; k < p->e; k++) {
      if (l->turn[2 * k] != MISSING) continue;
      rest = 1;
      if (met[k]) continue;
      find_fragment(p, l, &s, k, &f);
      for (int j = 0; j < p->e; j++) met[j] |= f.channel[j];
      if (f.fits == 0 && stuck < 0) stuck = k;
      if (lowest.name < 0) lowest = f;
      if (f.fits == 1 && single.name < 0) single = f;
    }
    l->word = !rest ? FLAT : stuck >= 0 ? STUCK : PARTIAL;
    l->name = rest && stuck >= 0 ? stuck : 0;
    if (!rest || stuck >= 0 || (uint32_t)l->paths == n) return;
    split(p, l, single.name >= 0 ? &single : &lowest);
  }
}

/* ---- sheets */

refusal second_judge(const uint8_t *f, size_t n, judgement *j) {
  static plate p;
  int turn[2 * MOST_E];
  char done[2 * MOST_E] = {0};
  refusal r = read_file(f, n, "FTS", 6, &p);
  if (r.number) return r;
  int darts = 2 * p.e;
  for (int d = 0; d < darts; d++) turn[d] = f[8 + darts + 2 * d] + 256 * f[9 + darts + 2 * d];
  for (int d = 0; d < darts; d++)
    if (turn[d] >= darts) return refuse(12, d);
  for (int d = 0; d < darts; d++)
    if (p.end[turn[d]] != p.end[d]) return refuse(13, d);
  for (int q = 0; q < p.v; q++) {
    int degree = 0, begin = -1, met = 0;
    char ring[2 * MOST_E] = {0};
    for (int d = darts - 1; d >= 0; d--)
      if (p.end[d] == q) degree++, begin = d;
    if (degree == 0) continue;
    int d = begin;
    for (; !ring[d]; d = turn[d]) ring[d] = 1, met++;
    if (d != begin || met != degree) return refuse(14, q);
  }
  memset(j, 0, sizeof *j);
  j->v = p.v;
  j->e = p.e;
  int at = 0;
  for (int d = 0; d < darts; d++) {
    if (done[d]) continue;
    for (int e = d; !done[e]; e = turn[e ^ 1]) done[e] = 1, j->dart[at++] = e, j->length[j->lands]++;
    j->lands++;
  }
  j->flat = p.v - p.e + j->lands == 2;
  return r;
}

void second_sheet(const plate *p, const layout *l, uint8_t *out) {
  memcpy(out, "FTS\1\0", 5);
  out[5] = (uint8_t)p->v;
  out[6] = (uint8_t)(p->e % 256);
  out[7] = (uint8_t)(p->e / 256);
  for (int d = 0; d < 2 * p->e; d++) {
    out[8 + d] = (uint8_t)p->end[d];
    out[8 + 2 * p->e + 2 * d] = (uint8_t)(l->turn[d] % 256);
    out[9 + 2 * p->e + 2 * d] = (uint8_t)(l->turn[d] / 256);
  }
}

/* ---- the listing */

size_t second_listing(refusal r, const plate *p, const layout *l, char *out) {
  char *o = out;
  if (r.number) return (size_t)sprintf(out, "REFUSED %d %d\n", r.number, r.place);
  o += sprintf(o, "FPL 1 %d %d\ncycle", p->v, p->e);
  for (int k = 0; k < l->cycle_length; k++) o += sprintf(o, " %d", p->end[l->cycle[k]]);
  o += sprintf(o, "\n");
  for (int i = 0; i < l->paths; i++) {
    const laid_path *q = &l->path[i];
    o += sprintf(o, "path %d %d %d", q->fragment, q->land, p->end[q->dart[0]]);
    for (int k = 0; k < q->length; k++) o += sprintf(o, " %d", p->end[q->dart[k] ^ 1]);
    o += sprintf(o, "\n");
  }
  if (l->word == STUCK) return (size_t)(o + sprintf(o, "STUCK %d %d\n", l->paths, l->name) - out);
  o += sprintf(o, "FLAT %d\n", l->paths);
  for (int i = 0; i < l->lands; i++) {
    o += sprintf(o, "land %d", i);
    for (int k = 0; k < l->length[i]; k++) o += sprintf(o, " %d", l->dart[i][k]);
    o += sprintf(o, "\n");
  }
  for (int q = 0; q < p->v; q++) {
    int begin = -1;
    for (int d = 2 * p->e - 1; d >= 0; d--)
      if (p->end[d] == q) begin = d;
    o += sprintf(o, "port %d", q);
    int d = begin;
    do {
      o += sprintf(o, " %d", d);
      d = l->turn[d];
    } while (d != begin);
    o += sprintf(o, "\n");
  }
  return (size_t)(o - out);
}
