/* Lists a plate file from standard input by the second program. */
#include <stdio.h>

#include "second.h"

int main(void) {
  static uint8_t file[1209];
  static char out[1 << 20];
  static plate p;
  static layout l;
  refusal r = second_read_plate(file, fread(file, 1, sizeof file, stdin), &p);
  if (!r.number) second_lay(&p, UINT32_MAX, &l);
  fwrite(out, 1, second_listing(r, &p, &l, out), stdout);
  return 0;
}
