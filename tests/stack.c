/* Measures the stack that each call uses for the plate file on standard input: it runs on a stack of its own, painted before.
   Fails where a call of the mill uses more than the header says. */
#define _GNU_SOURCE
#include <stdio.h>
#include <string.h>
#include <ucontext.h>

#include "../include/llentisquel.h"
#include "try_calls.h"

enum { STACK = 1 << 20, PAINT = 0xC3 };

static uint8_t stack[STACK], file[1209], sheet[PLATE_MOST_SHEET_BYTES], text[65536];
static uint16_t turns[1200], lands[1200], lengths[600];
static size_t n;
static ucontext_t here, there;

static void nothing(void) {}
static void write_sheet(void) { plate_write_sheet(file, n, sheet, sizeof sheet); }
static void judge_sheet(void) { plate_judge_sheet(sheet, PLATE_SHEET_BYTES(file[6] + 256 * file[7])); }
static void lay(void) {
  uint64_t answer[4];
  try_lay(file, n, UINT32_MAX, turns, 1200, lands, 1200, lengths, 600, answer);
}
static void read_sheet(void) {
  uint64_t answer[4];
  try_read_sheet(sheet, PLATE_SHEET_BYTES(file[6] + 256 * file[7]), lands, 1200, lengths, 600, answer);
}
static void list(void) {
  uint64_t answer[4];
  try_listing(file, n, text, sizeof text, answer);
}

static long used(void (*call)(void)) {
  memset(stack, PAINT, sizeof stack);
  getcontext(&there);
  there.uc_stack.ss_sp = stack;
  there.uc_stack.ss_size = sizeof stack;
  there.uc_link = &here;
  makecontext(&there, call, 0);
  swapcontext(&here, &there);
  long i = 0;
  while (i < STACK && stack[i] == PAINT) i++;
  return STACK - i;
}

int main(void) {
  n = fread(file, 1, sizeof file, stdin);
  long own = used(nothing), writes = used(write_sheet) - own, judges = used(judge_sheet) - own;
  printf("bytes of stack: plate_write_sheet %ld, plate_judge_sheet %ld, lay %ld, read_sheet %ld, listing %ld\n", writes, judges,
         used(lay) - own, used(read_sheet) - own, used(list) - own);
  return writes <= PLATE_WRITE_STACK && judges <= PLATE_JUDGE_STACK ? 0 : 1;
}
