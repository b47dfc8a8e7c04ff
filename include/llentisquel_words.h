/* The refusals in words, for those who want them. tests/refusals.py writes this file from refusals.txt. */
#ifndef LLENTISQUEL_WORDS_H
#define LLENTISQUEL_WORDS_H

#include "llentisquel.h"

/* What the refusal with this number means; % stands where its place goes. */
static inline const char *plate_refusal_words(uint32_t number) {
  switch (number) {
    case PLATE_CUT_OFF: return "the file has fewer than 8 bytes";
    case PLATE_MARK: return "the file does not begin with its mark: FPL for a plate, FTS for a turn sheet";
    case PLATE_VERSION: return "the version is not 1";
    case PLATE_PORTS: return "fewer than 3 or more than 200 ports";
    case PLATE_CHANNELS: return "fewer than 3 or more than 600 channels";
    case PLATE_LENGTH: return "the file is longer or shorter than its channels ask";
    case PLATE_STRANGE_PORT: return "channel % names a port that the plate does not have";
    case PLATE_LOOP: return "channel % leads from a port to itself";
    case PLATE_REPEATED: return "channel % joins two ports that are joined already";
    case PLATE_APART: return "port % is not linked to port 0";
    case PLATE_CUT_PORT: return "without port % the other ports fall in pieces";
    case PLATE_WILD_TURN: return "the turn of dart % is no dart";
    case PLATE_AWAY_TURN: return "the turn of dart % leaves another port";
    case PLATE_BROKEN_RING: return "the darts of port % do not form one ring";
    case PLATE_SHORT_BUFFER: return "the buffer lent for the result is too short";
    case PLATE_STUCK: return "stuck: no land visits all the laid ports of the part that channel % belongs to";
    default: return "no refusal has this number";
  }
}

#endif
