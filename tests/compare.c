/* Runs the proved calls beside the second program on the plates and sheets of make.c, and compares everything they leave.
   compare SEED PLATES: the seed, printed again, and how many plates. Every lent buffer has guard bytes around it. */
#include <stdio.h>
#include <stdlib.h>
#include <string.h>

#include "../include/llentisquel.h"
#include "make.h"
#include "try_calls.h"

/* ---- what is counted */

enum { MOST_REFUSAL = 16 };
enum { LAY, WRITE, READ, JUDGE, LIST, LISTED, CALLS };

#define NUMBERS(from, to) ((1ul << ((to) + 1)) - (1ul << (from)))

/* each call, and the refusals it gives */
static const struct {
  const char *name;
  unsigned long gives;
} call[CALLS] = {
    [LAY] = {"lay", NUMBERS(1, 11) | NUMBERS(15, 15)},
    [WRITE] = {"write", NUMBERS(1, 11) | NUMBERS(15, 16)},
    [READ] = {"read_sheet", NUMBERS(1, 9) | NUMBERS(12, 15)},
    [JUDGE] = {"judge", NUMBERS(1, 9) | NUMBERS(12, 14)},
    [LIST] = {"listing", NUMBERS(15, 15)},
    [LISTED] = {"REFUSED", NUMBERS(1, 11)}, /* the line, not the call */
};

static const char *const sheet_kind[SHEET_KINDS] = {
    [APART] = "two pieces", [BARE] = "unconnected ports", [CUT] = "a cut port", [ANY] = "any rings"};

static long compared, words[3], large_words[3], large_names, fullest, refusals[CALLS][MOST_REFUSAL + 1], sheets[SHEET_KINDS][2];

static const char *seed;
static long plates, at; /* how many, and which one it is */

static void fail(const char *what) {
  printf("DIFFERS: %s (seed %s, plate %ld of %ld)\n", what, seed, at, plates);
  exit(1);
}

static void want(int holds, const char *what) {
  if (!holds) fail(what);
  compared++;
}

/* ---- lent buffers */

enum { GUARD = 32, FILL = 0xA5, LISTING = 65536, ROOM = LISTING + 2000 };

typedef struct {
  _Alignas(8) uint8_t byte[ROOM + 2 * GUARD];
  uint8_t before[ROOM];
  size_t n;
} lent;

static lent files, turns, lands, lengths, out, answers;

static void *lend(lent *b, size_t n) {
  memset(b->byte, FILL, GUARD);
  for (size_t i = 0; i < n; i++) b->before[i] = (uint8_t)below(256);
  memcpy(b->byte + GUARD, b->before, n);
  memset(b->byte + GUARD + n, FILL, GUARD);
  b->n = n;
  return b->byte + GUARD;
}

/* the buffer holds the m bytes of `now`, then what was there before, and its guards are whole */
static void holds(const lent *b, const void *now, size_t m, const char *what) {
  if (m > b->n || (m > 0 && memcmp(b->byte + GUARD, now, m) != 0)) fail(what);
  if (memcmp(b->byte + GUARD + m, b->before + m, b->n - m) != 0) fail(what);
  for (size_t i = 0; i < GUARD; i++)
    if (b->byte[i] != FILL || b->byte[GUARD + b->n + i] != FILL) fail("a guard byte");
  compared++;
}

/* so many elements are lent where `need` are needed: none, one, any too few, one too few; or as many, or more */
static size_t size_near(size_t need, int too_few) {
  if (!too_few) return below(2) ? need : need + (size_t)below(below(4) ? 5 : 300);
  size_t few[] = {0, need > 1, (size_t)below((int)need), need - 1};
  return few[below(4)];
}

/* ---- answers */

/* 15 comes after the file's own refusals */
static refusal lent_test(refusal r, int too_few) {
  if (!r.number && too_few) r.number = PLATE_SHORT_BUFFER, r.place = 0;
  return r;
}

static void told(int a, int b, int c, int d, const char *what) {
  uint64_t now[4] = {(uint64_t)a, (uint64_t)b, (uint64_t)c, (uint64_t)d};
  holds(&answers, now, sizeof now, what);
}

/* a call refused is counted, and its answer compared */
static int told_refusal(int by, refusal r, const char *what) {
  if (!r.number) return 0;
  refusals[by][r.number]++;
  told(1, r.number, r.place, 0, what);
  return 1;
}

/* the mill's number for this refusal; for none, `otherwise` */
static uint32_t mill_number(int by, refusal r, uint32_t otherwise) {
  if (!r.number) return otherwise;
  refusals[by][r.number]++;
  return (uint32_t)r.number * 65536 + (uint32_t)r.place;
}

/* ---- any file */

/* the part of the file that holds the pairs, none where r refuses it; few: less room than they need */
static void compare_pairs(const uint8_t *file, size_t n, refusal r, int few) {
  static uint16_t pair_byte[2 * MOST_E];
  size_t need = r.number ? 0 : n - 8, a = size_near(need > 0 ? need : 8, few);
  want(try_pairs(file, n, lend(&turns, 2 * a), a) == need, "how many bytes the pairs are");
  for (size_t i = 0; i < need; i++) pair_byte[i] = file[8 + i];
  holds(&turns, pair_byte, 2 * (need < a ? need : a), "the pairs");
}

/* ---- sheets */

/* buffers in `few` (1 the darts, 2 the lengths) are too short */
static void compare_read(const uint8_t *file, size_t n, refusal r, const judgement *j, int few) {
  static uint16_t want_dart[2 * MOST_E], want_length[MOST_E];
  size_t darts = r.number ? 8 : 2 * (size_t)j->e, most = r.number ? 8 : (size_t)j->e;
  size_t a = size_near(darts, few & 1), b = size_near(most, few & 2);
  try_read_sheet(file, n, lend(&lands, 2 * a), a, lend(&lengths, 2 * b), b, lend(&answers, 32));
  if (told_refusal(READ, lent_test(r, few), "the refusal of a sheet")) {
    holds(&lands, NULL, 0, "darts of a refused sheet");
    holds(&lengths, NULL, 0, "lengths of a refused sheet");
    return;
  }
  told(0, j->flat, j->lands, 0, "the count of a sheet");
  for (size_t i = 0; i < darts; i++) want_dart[i] = (uint16_t)j->dart[i];
  for (size_t i = 0; i < most; i++) want_length[i] = i < (size_t)j->lands ? (uint16_t)j->length[i] : 0;
  holds(&lands, want_dart, 2 * darts, "the lands of a sheet");
  holds(&lengths, want_length, 2 * most, "the lengths of a sheet");
}

/* whether it is flat; -1 where it is refused */
static int compare_sheet(const uint8_t *given, size_t n) {
  static judgement j;
  static plate p;
  uint8_t *file = lend(&files, n);
  memcpy(file, given, n);
  refusal r = second_judge(file, n, &j);
  want(plate_judge_sheet(file, n) == mill_number(JUDGE, r, j.flat ? PLATE_FLAT : PLATE_NOT_FLAT), "the judge's number");
  for (int few = 0; few < 4; few++) compare_read(file, n, r, &j, few);
  compare_pairs(file, n, second_read_plate(file, n, &p), 0);
  holds(&files, given, n, "the file of a sheet");
  return r.number ? -1 : j.flat;
}

static void compare_damaged_sheet(uint8_t *file, size_t n, int e) {
  for (int k = below(2); k >= 0; k--) n = damage(file, n, e, SHEET_BYTES);
  compare_sheet(file, n);
}

/* a written sheet, and two drawn from it by another hand */
static void compare_written(const plate *p, const layout *l) {
  static sheet s;
  static uint8_t file[MOST_BYTES];
  s.p = *p;
  memcpy(s.turn, l->turn, sizeof s.turn);
  want(compare_sheet(file, sheet_file(&s, file)) == 1, "a written sheet is flat");
  compare_damaged_sheet(file, sheet_file(&s, file), p->e);
  keep_piece(&s);
  reverse_ring(&s);
  compare_sheet(file, sheet_file(&s, file));
}

/* ---- plates */

/* a file, as the second program reads it, and its plate laid without a cap */
typedef struct {
  const uint8_t *file;
  size_t n;
  refusal r;
  plate p;
  layout whole;
} reading;

static void count_word(const plate *p, const layout *l) {
  words[l->word]++;
  if (p->e >= LARGE) large_words[l->word]++;
  if (l->name >= LARGE) large_names++;
  if (p->v == MOST_V && p->e == MOST_E) fullest++;
}

static void compare_layout(const plate *p, const layout *l) {
  static uint16_t want_turn[2 * MOST_E], want_dart[2 * MOST_E], want_length[MOST_E];
  size_t darts = 2 * (size_t)p->e, most = (size_t)(p->e - p->v + 2), filled = 0;
  count_word(p, l);
  told(0, l->word, l->paths, l->name, "the word, the number of paths, the name");
  for (size_t i = 0; i < darts; i++) want_turn[i] = (uint16_t)l->turn[i], want_dart[i] = MISSING;
  for (int i = 0; i < l->lands; i++)
    for (int k = 0; k < l->length[i]; k++) want_dart[filled++] = (uint16_t)l->dart[i][k];
  for (size_t i = 0; i < most; i++) want_length[i] = i < (size_t)l->lands ? (uint16_t)l->length[i] : 0;
  holds(&turns, want_turn, 2 * darts, "the turns");
  holds(&lands, want_dart, 2 * darts, "the lands");
  holds(&lengths, want_length, 2 * most, "the lengths");
}

/* buffers in `few` (1 the turns, 2 the lands, 4 the lengths) are too short */
static void compare_lay(const reading *g, uint32_t cap, int few) {
  static layout l;
  size_t darts = g->r.number ? 8 : 2 * (size_t)g->p.e, most = g->r.number ? 8 : (size_t)(g->p.e - g->p.v + 2);
  size_t a = size_near(darts, few & 1), b = size_near(darts, few & 2), c = size_near(most, few & 4);
  uint16_t *t = lend(&turns, 2 * a), *d = lend(&lands, 2 * b), *m = lend(&lengths, 2 * c);
  try_lay(g->file, g->n, cap, t, a, d, b, m, c, lend(&answers, 32));
  if (told_refusal(LAY, lent_test(g->r, few), "the refusal of laying")) {
    holds(&turns, NULL, 0, "turns of a refused laying");
    holds(&lands, NULL, 0, "lands of a refused laying");
    holds(&lengths, NULL, 0, "lengths of a refused laying");
  } else if (cap == UINT32_MAX) {
    compare_layout(&g->p, &g->whole);
  } else {
    second_lay(&g->p, cap, &l);
    compare_layout(&g->p, &l);
  }
}

/* n: every one that can matter where the plate is small; else around the last path, and any */
static void compare_caps(const reading *g) {
  int most = g->p.e - g->p.v + 1;
  compare_lay(g, UINT32_MAX, 0);
  for (int few = 1; few < 8; few++) compare_lay(g, (uint32_t)below(40), few);
  if (g->r.number) return;
  if (g->p.e <= 20) {
    for (int cap = 0; cap <= most; cap++) compare_lay(g, (uint32_t)cap, 0);
    return;
  }
  compare_lay(g, (uint32_t)below(6), 0);
  compare_lay(g, (uint32_t)below(most + 1), 0);
  compare_lay(g, (uint32_t)g->whole.paths, 0);
  if (g->whole.paths > 0) compare_lay(g, (uint32_t)g->whole.paths - 1, 0);
}

static void compare_write(const reading *g, int few) {
  static uint8_t sheet[8 + 6 * MOST_E];
  size_t need = g->r.number ? 50 : 8 + 6 * (size_t)g->p.e, a = size_near(need, few);
  refusal r = lent_test(g->r, few);
  if (!r.number && g->whole.word == STUCK) r.number = PLATE_STUCK, r.place = g->whole.name;
  uint8_t *o = lend(&out, a);
  want(plate_write_sheet(g->file, g->n, o, a) == mill_number(WRITE, r, PLATE_DONE), "the writer's number");
  if (!r.number) second_sheet(&g->p, &g->whole, sheet);
  holds(&out, sheet, r.number ? 0 : need, "the bytes of a written sheet");
}

/* a refused file has a listing too, so only the buffer is refused */
static void compare_listing(const reading *g, int few) {
  static char text[1 << 20];
  refusal none = {0, 0};
  size_t need = second_listing(g->r, &g->p, &g->whole, text), a = size_near(LISTING, few);
  try_listing(g->file, g->n, lend(&out, a), a, lend(&answers, 32));
  if (told_refusal(LIST, lent_test(none, few), "the refusal of a listing")) {
    holds(&out, NULL, 0, "the bytes of a refused listing");
    return;
  }
  refusals[LISTED][g->r.number]++;
  told(0, (int)need, 0, 0, "the length of a listing");
  holds(&out, text, need, "the bytes of a listing");
}

static void compare_plate(const uint8_t *given, size_t n) {
  static reading g;
  uint8_t *file = lend(&files, n);
  memcpy(file, given, n);
  g.file = file, g.n = n;
  g.r = second_read_plate(file, n, &g.p);
  if (!g.r.number) second_lay(&g.p, UINT32_MAX, &g.whole);
  compare_caps(&g);
  for (int few = 0; few < 2; few++) {
    compare_write(&g, few);
    compare_listing(&g, few);
    compare_pairs(file, n, g.r, few);
  }
  holds(&files, given, n, "the file of a plate");
  if (!g.r.number && g.whole.word == FLAT) compare_written(&g.p, &g.whole);
}

static void compare_damaged_plate(uint8_t *file, size_t n, int e) {
  for (int k = below(2); k >= 0; k--) n = damage(file, n, e, PAIR_BYTES);
  compare_plate(file, n);
  memcpy(file, "FTS", 3);
  compare_sheet(file, n);
}

/* a sheet made by hand, the sheet damaged, and its pairs as a plate */
static void compare_made_sheet(int kind, uint8_t *file) {
  static sheet s;
  make_sheet(kind, &s);
  int flat = compare_sheet(file, sheet_file(&s, file));
  if (flat >= 0) sheets[kind][flat]++;
  if (s.p.e > 0) compare_damaged_sheet(file, sheet_file(&s, file), s.p.e);
  if (kind != ANY) compare_plate(file, plate_file(&s.p, file));
}

/* ---- */

enum { LARGE_EVERY = 20 };

static void compare_all(void) {
  static uint8_t file[MOST_BYTES];
  static plate p;
  for (at = 0; at < plates; at++) {
    if (at % LARGE_EVERY == 0) make_large((int)(at / LARGE_EVERY % LARGE_KINDS), &p);
    else make_plate(&p);
    size_t n = plate_file(&p, file);
    compare_plate(file, n);
    if (at % 2 == 0 && p.e > 0) compare_damaged_plate(file, n, p.e);
    if (at % 2 == 1) compare_made_sheet((int)(at / 2 % SHEET_KINDS), file);
  }
}

static void must_meet(long times, const char *what, int which) {
  if (times > 0) return;
  printf("NOT MET: %s %d (seed %s, %ld plates)\n", what, which, seed, plates);
  exit(1);
}

/* everything that there is was met */
static void all_met(void) {
  for (int c = 0; c < CALLS; c++)
    for (int k = 1; k <= MOST_REFUSAL; k++)
      if (call[c].gives >> k & 1) must_meet(refusals[c][k], call[c].name, k);
      else want(refusals[c][k] == 0, call[c].name);
  for (int k = 0; k < 3; k++) must_meet(words[k], "word", k), must_meet(large_words[k], "word of a large plate", k);
  for (int k = 0; k < SHEET_KINDS; k++)
    for (int flat = 0; flat < 2; flat++) must_meet(sheets[k][flat], sheet_kind[k], flat);
  must_meet(large_names, "a fragment named", LARGE);
  must_meet(fullest, "200 ports and channels", MOST_E);
}

static void print_counts(void) {
  printf("seed %s: %ld plates, %ld facts compared; FLAT %ld, STUCK %ld, PARTIAL %ld; refusals", seed, plates, compared, words[FLAT],
         words[STUCK], words[PARTIAL]);
  for (int k = 1; k <= MOST_REFUSAL; k++) {
    long all = 0;
    for (int c = 0; c < LISTED; c++) all += refusals[c][k];
    printf(" %ld", all);
  }
  printf("\n  %d channels or more: FLAT %ld, STUCK %ld, PARTIAL %ld; 200 ports and 600 channels: %ld", LARGE, large_words[FLAT],
         large_words[STUCK], large_words[PARTIAL], fullest);
  printf("\n  sheets made by hand, flat and not flat:");
  for (int k = 0; k < SHEET_KINDS; k++) printf("%s %s %ld %ld", k ? "," : "", sheet_kind[k], sheets[k][1], sheets[k][0]);
  for (int c = 0; c < CALLS; c++) {
    printf("\n  refusals of %s:", call[c].name);
    for (int k = 1; k <= MOST_REFUSAL; k++)
      if (call[c].gives >> k & 1) printf(" %d: %ld", k, refusals[c][k]);
  }
  printf("\n");
}

int main(int argc, char **argv) {
  if (argc != 3) return printf("compare SEED PLATES\n"), 2;
  seed = argv[1], plates = atol(argv[2]);
  set_seed(strtoull(seed, NULL, 10));
  compare_all();
  all_met();
  print_counts();
  return 0;
}
