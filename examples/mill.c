/* Writes the turn sheet of a plate file, judges it, and says in words what was refused.
   mill PLATE [SHEET]: the plate file, and where the sheet goes. Exit status 0 only for a flat sheet. */
#include <stdio.h>

#include "llentisquel.h"
#include "llentisquel_words.h"

/* 0 where the answer is no refusal */
static int refused(const char *what, uint32_t answer) {
  if (answer < 65536) return 0;
  unsigned number = PLATE_NUMBER(answer), place = PLATE_PLACE(answer);
  fprintf(stderr, "%s refused, %u at %u: ", what, number, place);
  for (const char *w = plate_refusal_words(number); *w; w++)
    if (*w == '%') fprintf(stderr, "%u", place);
    else fputc(*w, stderr);
  fputc('\n', stderr);
  return 1;
}

int main(int argc, char **argv) {
  static uint8_t file[1 + 8 + 2 * 600], sheet[PLATE_MOST_SHEET_BYTES];
  if (argc < 2) return fprintf(stderr, "mill PLATE [SHEET]\n"), 2;
  FILE *in = fopen(argv[1], "rb");
  if (!in) return perror(argv[1]), 2;
  size_t n = fread(file, 1, sizeof file, in);
  fclose(in);
  if (refused("plate", plate_write_sheet(file, n, sheet, sizeof sheet))) return 1;
  size_t m = PLATE_SHEET_BYTES(file[6] + 256 * file[7]);
  uint32_t judged = plate_judge_sheet(sheet, m);
  if (refused("sheet", judged)) return 1;
  printf("%s\n", judged == PLATE_FLAT ? "flat" : "not flat");
  if (argc > 2) {
    FILE *out = fopen(argv[2], "wb");
    if (!out || fwrite(sheet, 1, m, out) != m || fclose(out) != 0) return perror(argv[2]), 2;
  }
  return judged == PLATE_FLAT ? 0 : 1;
}
