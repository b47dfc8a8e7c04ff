/* What is compared: random plates, large plates, damaged files, and sheets made by hand. */
#ifndef MAKE_H
#define MAKE_H
#include "second.h"

typedef struct {
  plate p;
  int turn[2 * MOST_E];
} sheet;

enum { PAIR_BYTES = 2, SHEET_BYTES = 6 };              /* of a channel, in a plate file and in a sheet */
enum { MOST_BYTES = 8 + SHEET_BYTES * (MOST_E + 1) };  /* of a file made here: a sheet with a channel too many */
enum { LARGE = 256 };                                  /* so many channels, or more: a number of two bytes */

/* the large plates */
enum { MAXIMAL, MAXIMAL_AND_ONE, FULLEST, GRID, GRID_AND_ONE, CHORDS, DENSE, EARS, LARGE_KINDS };
/* the sheets made by hand: two pieces, ports without channels, a cut port; any plate, with any rings.
   Flat is V - E + lands = 2, whatever the pieces: two flat pieces side by side are not. */
enum { APART, BARE, CUT, ANY, SHEET_KINDS };

void set_seed(uint64_t seed);
int below(int n); /* a random number */

void make_plate(plate *p);           /* a few ports; it may be refused */
void make_large(int kind, plate *p); /* 256 to 600 channels */

/* a flat sheet from which others are put together */
void keep_piece(const sheet *s);
/* pieces put together, some with one ring or every ring made anew, so that most of those aren't flat; for ANY, a new plate */
void make_sheet(int kind, sheet *s);
/* the ring of one port, the other way round */
void reverse_ring(sheet *s);

/* the file; its length */
size_t plate_file(const plate *p, uint8_t *file);
size_t sheet_file(const sheet *s, uint8_t *file);
/* alters a file of e > 0 channels in one place, or its length; the length */
size_t damage(uint8_t *file, size_t n, int e, int channel_bytes);

#endif
