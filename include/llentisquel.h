/* Llentisquel: turn sheets for milled flow plates. Two calls, proved for every input.

   Both take byte buffers, each a pointer and its length; no pointer is NULL, not even with length 0.
   The caller owns every buffer: nothing is kept after a call, and no memory is allocated. `file` is
   only read, and must not overlap `out`. There is no global state, so calls may run in any number of
   threads at once, each with its own `out`. A call ends for every input, of every length and content.

   Neither call uses more stack than PLATE_WRITE_STACK or PLATE_JUDGE_STACK bytes (tests/stack.c measures it).

   The answer is 0 or 1 as said below, or a refusal: number * 65536 + place. */
#ifndef LLENTISQUEL_H
#define LLENTISQUEL_H

#include <stddef.h>
#include <stdint.h>

#ifdef __cplusplus
extern "C" {
#endif

enum { PLATE_DONE = 0 };                       /* plate_write_sheet: the sheet is written */
enum { PLATE_FLAT = 0, PLATE_NOT_FLAT = 1 };   /* plate_judge_sheet */

/* Refusal numbers; of each, what its place is, and its meaning, in which % is the place. The lowest number that
   applies is given. The place of a fragment is its name: its lowest channel. llentisquel_words.h has the words. */
/* From refusals.txt: */
enum {
  PLATE_CUT_OFF = 1,       /* 0        | the file has fewer than 8 bytes */
  PLATE_MARK = 2,          /* 0        | the file does not begin with its mark: FPL for a plate, FTS for a turn sheet */
  PLATE_VERSION = 3,       /* 0        | the version is not 1 */
  PLATE_PORTS = 4,         /* 0        | fewer than 3 or more than 200 ports */
  PLATE_CHANNELS = 5,      /* 0        | fewer than 3 or more than 600 channels */
  PLATE_LENGTH = 6,        /* 0        | the file is longer or shorter than its channels ask */
  PLATE_STRANGE_PORT = 7,  /* channel  | channel % names a port that the plate does not have */
  PLATE_LOOP = 8,          /* channel  | channel % leads from a port to itself */
  PLATE_REPEATED = 9,      /* channel  | channel % joins two ports that are joined already */
  PLATE_APART = 10,        /* port     | port % is not linked to port 0 */
  PLATE_CUT_PORT = 11,     /* port     | without port % the other ports fall in pieces */
  PLATE_WILD_TURN = 12,    /* dart     | the turn of dart % is no dart */
  PLATE_AWAY_TURN = 13,    /* dart     | the turn of dart % leaves another port */
  PLATE_BROKEN_RING = 14,  /* port     | the darts of port % do not form one ring */
  PLATE_SHORT_BUFFER = 15, /* 0        | the buffer lent for the result is too short */
  PLATE_STUCK = 16         /* fragment | stuck: no land visits all the laid ports of the part that channel % belongs to */
};
/* So far refusals.txt. */

/* The parts of an answer of 65536 or more. */
#define PLATE_NUMBER(answer) ((uint32_t)(answer) >> 16)
#define PLATE_PLACE(answer) ((uint32_t)(answer) & 65535u)

/* The bytes that the sheet of a plate with so many channels needs; enough for every plate. */
#define PLATE_SHEET_BYTES(channels) (8 + 6 * (size_t)(channels))
#define PLATE_MOST_SHEET_BYTES PLATE_SHEET_BYTES(600)

/* Bytes of stack, at most. */
enum { PLATE_WRITE_STACK = 32768, PLATE_JUDGE_STACK = 16384 };

/* Lays the plate of a plate file and writes its turn sheet to the front of `out`: PLATE_DONE, or
   refusals 1 to 11, 15 and 16. Bytes behind the sheet, and on a refusal all bytes, stay as they were. */
uint32_t plate_write_sheet(const uint8_t *file, size_t file_length, uint8_t *out, size_t out_length);

/* Judges a turn sheet: PLATE_FLAT, PLATE_NOT_FLAT, or refusals 1 to 9 and 12 to 14. */
uint32_t plate_judge_sheet(const uint8_t *file, size_t file_length);

#ifdef __cplusplus
}
#endif

#endif
