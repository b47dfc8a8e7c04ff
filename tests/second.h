/* The second program: document 01 once more, in plain C, written from the document alone.
   It shares nothing with crates/, is slow and literal, and serves to compare. */
#ifndef SECOND_H
#define SECOND_H
#include <stddef.h>
#include <stdint.h>

enum { MOST_V = 200, MOST_E = 600, MISSING = 65535 };
enum { FLAT = 0, STUCK = 1, PARTIAL = 2 };

typedef struct {
  int number, place; /* number 0: not refused */
} refusal;

typedef struct {
  int v, e;
  int end[2 * MOST_E]; /* the port that each dart leaves */
} plate;

typedef struct {
  int fragment, land, length;
  int dart[MOST_E];
} laid_path;

typedef struct {
  int word, paths, name, lands;
  int turn[2 * MOST_E];
  int length[MOST_E];
  int dart[MOST_E][2 * MOST_E]; /* of each land, from its smallest */
  int cycle[MOST_E], cycle_length;
  laid_path path[MOST_E];
} layout;

typedef struct {
  int v, e, lands, flat;
  int length[2 * MOST_E];
  int dart[2 * MOST_E]; /* the lands one after another, in order of smallest dart */
} judgement;

refusal second_read_plate(const uint8_t *file, size_t n, plate *p);
void second_lay(const plate *p, uint32_t n, layout *out);
refusal second_judge(const uint8_t *file, size_t n, judgement *j);
/* the bytes of the sheet, 8 + 6E of them, of a layout that is FLAT */
void second_sheet(const plate *p, const layout *l, uint8_t *out);
/* the listing of a file that is refused, or of its plate and the layout without a cap; its length */
size_t second_listing(refusal r, const plate *p, const layout *l, char *out);

#endif
