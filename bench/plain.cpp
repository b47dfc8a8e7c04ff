#include "plain.hpp"

#include <algorithm>
#include <cstring>

namespace {

using Ints = std::vector<int>;
const int MISSING = 65535;

struct Plate {
  int v = 0, e = 0;
  Ints end;                    // the port that each dart leaves
  std::vector<Ints> neighbour; // the darts that leave each port
};

bool read_pairs(const uint8_t *f, size_t n, const char *mark, int per_channel, Plate &p) {
  if (n < 8 || std::memcmp(f, mark, 3) != 0 || f[3] != 1 || f[4] != 0) return false;
  p.v = f[5], p.e = f[6] + 256 * f[7];
  if (p.v < 3 || p.v > 200 || p.e < 3 || p.e > 600 || n != 8 + size_t(per_channel) * size_t(p.e)) return false;
  p.end.assign(f + 8, f + 8 + 2 * p.e);
  p.neighbour.assign(size_t(p.v), {});
  for (int k = 0; k < p.e; k++) {
    int a = p.end[2 * k], b = p.end[2 * k + 1];
    if (a >= p.v || b >= p.v || a == b) return false;
    for (int j = 0; j < k; j++) {
      int c = p.end[2 * j], d = p.end[2 * j + 1];
      if ((a == c && b == d) || (a == d && b == c)) return false;
    }
  }
  for (int d = 0; d < 2 * p.e; d++) p.neighbour[p.end[d]].push_back(d);
  return true;
}

// every port that can be reached from a without entering one that is barred
int flood(const Plate &p, int a, std::vector<char> &met, Ints &queue) {
  queue.clear();
  queue.push_back(a);
  met[a] = 1;
  for (size_t i = 0; i < queue.size(); i++)
    for (int d : p.neighbour[queue[i]]) {
      int q = p.end[d ^ 1];
      if (!met[q]) met[q] = 1, queue.push_back(q);
    }
  return int(queue.size());
}

bool whole(const Plate &p) {
  Ints queue;
  std::vector<char> met(size_t(p.v), 0);
  if (flood(p, 0, met, queue) != p.v) return false;
  for (int c = 0; c < p.v; c++) {
    std::fill(met.begin(), met.end(), 0);
    met[c] = 1;
    if (flood(p, c == 0 ? 1 : 0, met, queue) != p.v - 1) return false;
  }
  return true;
}

// the path from x to y by the darts that `ok` allows, between only through ports that `through` allows
Ints find_path(const Plate &p, const std::vector<char> &ok, const std::vector<char> &through, int x, int y) {
  Ints far(size_t(p.v), -1), queue{y}, path;
  far[y] = 0;
  for (size_t i = 0; i < queue.size() && far[x] < 0; i++)
    for (int d : p.neighbour[queue[i]]) {
      int q = p.end[d ^ 1];
      if (ok[d / 2] && far[q] < 0 && (through[q] || q == x)) far[q] = far[queue[i]] + 1, queue.push_back(q);
    }
  for (int at = x; at != y;) {
    int best = -1;
    for (int d : p.neighbour[at])
      if (ok[d / 2] && far[p.end[d ^ 1]] == far[at] - 1 && (best < 0 || p.end[d ^ 1] < p.end[best ^ 1])) best = d;
    path.push_back(best);
    at = p.end[best ^ 1];
  }
  return path;
}

Ints reversed(const Ints &q) {
  Ints r(q.rbegin(), q.rend());
  for (int &d : r) d ^= 1;
  return r;
}

Ints put_land(Plain &l, Ints cycle) {
  for (size_t k = 0; k < cycle.size(); k++) l.turns[cycle[k] ^ 1] = cycle[(k + 1) % cycle.size()];
  std::rotate(cycle.begin(), std::min_element(cycle.begin(), cycle.end()), cycle.end());
  return cycle;
}

struct Fragment {
  int name = -1, fits = 0, land = 0;
  Ints contacts;
  std::vector<char> port, channel;
};

bool visits_all(const Plate &p, const Ints &land, const Ints &contacts) {
  for (int c : contacts) {
    bool met = false;
    for (int d : land)
      if (p.end[d] == c) {
        met = true;
        break;
      }
    if (!met) return false;
  }
  return true;
}

Fragment find_fragment(const Plate &p, const Plain &l, const std::vector<char> &laid, int k) {
  Fragment f;
  f.name = k;
  f.port.assign(size_t(p.v), 0);
  f.channel.assign(size_t(p.e), 0);
  std::vector<char> touched(size_t(p.v), 0);
  int a = p.end[2 * k], b = p.end[2 * k + 1];
  if (laid[a] && laid[b]) {
    f.channel[k] = touched[a] = touched[b] = 1;
  } else {
    Ints queue{laid[a] ? b : a};
    f.port[queue[0]] = 1;
    for (size_t i = 0; i < queue.size(); i++)
      for (int d : p.neighbour[queue[i]]) {
        int q = p.end[d ^ 1];
        f.channel[d / 2] = 1;
        if (laid[q]) touched[q] = 1;
        else if (!f.port[q]) f.port[q] = 1, queue.push_back(q);
      }
  }
  for (int q = 0; q < p.v; q++)
    if (touched[q]) f.contacts.push_back(q);
  for (size_t i = 0; i < l.lands.size() && f.fits < 2; i++)
    if (visits_all(p, l.lands[i], f.contacts) && f.fits++ == 0) f.land = int(i);
  return f;
}

void split(const Plate &p, Plain &l, const Fragment &f) {
  int x = f.contacts[0], y = f.contacts[1];
  Ints q = find_path(p, f.channel, f.port, x, y), land = l.lands[f.land];
  auto leaves = [&](int port) { return [&p, port](int d) { return p.end[d] == port; }; };
  std::rotate(land.begin(), std::find_if(land.begin(), land.end(), leaves(x)), land.end());
  auto at_y = std::find_if(land.begin(), land.end(), leaves(y));
  Ints old = q, made = reversed(q);
  old.insert(old.end(), at_y, land.end());
  made.insert(made.end(), land.begin(), at_y);
  l.lands[f.land] = put_land(l, old);
  l.lands.push_back(put_land(l, made));
  l.paths++;
}

}  // namespace

Plain plain_lay(const uint8_t *file, size_t n, uint32_t cap) {
  Plain l;
  Plate p;
  if (!read_pairs(file, n, "FPL", 2, p) || !whole(p)) return l;
  l.turns.assign(size_t(2 * p.e), MISSING);
  std::vector<char> ok(size_t(p.e), 1), through(size_t(p.v), 1);
  ok[0] = 0;
  Ints cycle{0}, way = find_path(p, ok, through, p.end[1], p.end[0]);
  cycle.insert(cycle.end(), way.begin(), way.end());
  l.lands.push_back(put_land(l, cycle));
  l.lands.push_back(put_land(l, reversed(cycle)));
  for (;;) {
    std::vector<char> laid(size_t(p.v), 0), met(size_t(p.e), 0);
    Fragment lowest, single;
    int stuck = -1;
    for (int d = 0; d < 2 * p.e; d++)
      if (l.turns[d] != MISSING) laid[p.end[d]] = 1;
    for (int k = 0; k < p.e && stuck < 0; k++) {
      if (met[k] || l.turns[2 * k] != MISSING) continue;
      Fragment f = find_fragment(p, l, laid, k);
      for (int j = k; j < p.e; j++) met[j] |= f.channel[j];
      if (f.fits == 0) stuck = k;
      if (f.fits == 1 && single.name < 0) single = f;
      if (lowest.name < 0) lowest = f;
    }
    l.word = stuck >= 0 ? Plain::STUCK : lowest.name < 0 ? Plain::FLAT : Plain::PARTIAL;
    l.name = stuck >= 0 ? stuck : 0;
    if (l.word != Plain::PARTIAL || uint32_t(l.paths) == cap) return l;
    split(p, l, single.name >= 0 ? single : lowest);
  }
}

bool plain_judge(const uint8_t *file, size_t n) {
  Plate p;
  if (!read_pairs(file, n, "FTS", 6, p)) return false;
  int darts = 2 * p.e, lands = 0;
  Ints turn(static_cast<size_t>(darts));
  for (int d = 0; d < darts; d++) turn[d] = file[8 + darts + 2 * d] + 256 * file[9 + darts + 2 * d];
  for (int d = 0; d < darts; d++)
    if (turn[d] >= darts || p.end[turn[d]] != p.end[d]) return false;
  for (const Ints &ds : p.neighbour) {
    if (ds.empty()) continue;
    size_t met = 0;
    int d = ds[0];
    do d = turn[d], met++;
    while (d != ds[0] && met <= ds.size());
    if (d != ds[0] || met != ds.size()) return false;
  }
  std::vector<char> done(size_t(darts), 0);
  for (int d = 0; d < darts; d++) {
    if (done[d]) continue;
    lands++;
    for (int e = d; !done[e]; e = turn[e ^ 1]) done[e] = 1;
  }
  return p.v + lands == p.e + 2;
}
