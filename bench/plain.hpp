// The same rules in plain C++: a plate file read, and laid with the triple loop (lands, contacts, darts) for each fragment in each round.
#pragma once
#include <cstddef>
#include <cstdint>
#include <vector>

struct Plain {
  enum Word { FLAT, STUCK, PARTIAL, REFUSED };
  Word word = REFUSED;
  int paths = 0, name = 0;
  std::vector<int> turns;
  std::vector<std::vector<int>> lands;
};

Plain plain_lay(const uint8_t *file, size_t n, uint32_t cap);
// yes or no: each port's darts form one ring, and V - E + lands = 2
bool plain_judge(const uint8_t *file, size_t n);
