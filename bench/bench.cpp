// Times our calls beside a plain C++ program of the same rules and Boost's Boyer-Myrvold embedding, all built for one processor and run in one run.
// bench [MILLISECONDS]: how long each is repeated. Times are microseconds a call, the least of five rounds.
#include <boost/graph/adjacency_list.hpp>
#include <boost/graph/boyer_myrvold_planar_test.hpp>
#include <chrono>
#include <cstdio>
#include <cstdlib>
#include <functional>
#include <initializer_list>
#include <random>
#include <string>
#include <utility>
#include <vector>

#include "../include/llentisquel.h"
extern "C" {
#include "../tests/try_calls.h"
}
#include "plain.hpp"

using Bytes = std::vector<uint8_t>;
using Pairs = std::vector<std::pair<int, int>>;

// ---- plates

static std::mt19937 rng(20261115);
static int below(int n) { return int(rng() % unsigned(n)); }

// each new port is joined to the corners of a triangle: 3V - 6 channels
static Pairs maximal(int v) {
  Pairs pairs{{0, 1}, {0, 2}, {1, 2}};
  std::vector<std::vector<int>> triangle{{0, 1, 2}, {0, 1, 2}};
  for (int p = 3; p < v; p++) {
    std::vector<int> t = triangle[size_t(below(int(triangle.size())))];
    std::vector<int> &old = *std::find(triangle.begin(), triangle.end(), t);
    for (int q : t) pairs.push_back({q, p});
    old = {t[0], t[1], p};
    triangle.push_back({t[0], t[2], p});
    triangle.push_back({t[1], t[2], p});
  }
  std::shuffle(pairs.begin(), pairs.end(), rng);
  return pairs;
}

// a ring with a few channels across, none crossing
static Pairs thin(int v) {
  Pairs pairs;
  for (int p = 0; p < v; p++) pairs.push_back({p, (p + 1) % v});
  for (int p = 0; p + 8 < v; p += 8) pairs.push_back({p, p + 5});
  std::shuffle(pairs.begin(), pairs.end(), rng);
  return pairs;
}

static Pairs grid(int v) {
  Pairs pairs;
  int wide = v < 20 ? 5 : 10, high = v / wide;
  for (int p = 0; p < wide * high; p++) {
    if (p % wide + 1 < wide) pairs.push_back({p, p + 1});
    if (p / wide + 1 < high) pairs.push_back({p, p + wide});
  }
  std::shuffle(pairs.begin(), pairs.end(), rng);
  return pairs;
}

static Pairs wheel(int v) {
  Pairs pairs;
  for (int p = 1; p < v; p++) pairs.push_back({0, p}), pairs.push_back({p, p + 1 < v ? p + 1 : 1});
  std::shuffle(pairs.begin(), pairs.end(), rng);
  return pairs;
}

// a grid with one long channel that can't be laid
static Pairs crossed(int v) {
  Pairs pairs = grid(v);
  int wide = v < 20 ? 5 : 10, high = v / wide;
  pairs.push_back({high / 2 * wide + wide / 2 - (high < 3), wide * high - 1});
  if (high < 3) pairs.push_back({1, wide * 2 - 2}), pairs.push_back({3, wide + 1});
  return pairs;
}

static Bytes file_of(int v, const Pairs &pairs) {
  Bytes b{'F', 'P', 'L', 1, 0, uint8_t(v), uint8_t(pairs.size() % 256), uint8_t(pairs.size() / 256)};
  for (auto [x, y] : pairs) b.push_back(uint8_t(x)), b.push_back(uint8_t(y));
  return b;
}

// ---- clocks

static double budget = 0.05;

struct Timed {
  std::function<void()> call;
  double micros = 1e18;
  long calls = 0;
};

// The calls take turns, five times, so that a processor that changes its pace does so for all of them.
static void clock_all(std::initializer_list<Timed *> all) {
  using clock = std::chrono::steady_clock;
  for (int round = 0; round < 5; round++)
    for (Timed *t : all) {
      long calls = 0;
      auto begin = clock::now();
      double spent = 0;
      do {
        t->call();
        calls++;
        spent = std::chrono::duration<double>(clock::now() - begin).count();
      } while (spent < budget);
      t->micros = std::min(t->micros, spent / double(calls) * 1e6);
      t->calls += calls;
    }
}

static void put(double micros) { std::printf(micros < 10 ? " %.1f |" : " %.0f |", micros); }

static void put(const Timed &ours, const Timed &other) {
  put(ours.micros);
  put(other.micros);
  std::printf(" %.2f |", ours.micros / other.micros);
}

static bool boost_embeds(int v, const Pairs &pairs) {
  using namespace boost;
  typedef adjacency_list<vecS, vecS, undirectedS, property<vertex_index_t, int>, property<edge_index_t, int>> Graph;
  Graph g{size_t(v)};
  int k = 0;
  for (auto [x, y] : pairs) add_edge(size_t(x), size_t(y), k++, g);
  std::vector<std::vector<graph_traits<Graph>::edge_descriptor>> at(num_vertices(g));
  return boyer_myrvold_planarity_test(boyer_myrvold_params::graph = g, boyer_myrvold_params::embedding = &at[0]);
}

static void fail(const char *what) {
  std::printf("DIFFERS: %s\n", what);
  std::exit(1);
}

static void run(const std::string &kind, int v, const Pairs &pairs) {
  Bytes file = file_of(v, pairs), sheet(PLATE_MOST_SHEET_BYTES);
  size_t e = pairs.size(), sheet_length = PLATE_SHEET_BYTES(e);
  std::vector<uint16_t> turns(2 * e), lands(2 * e), lengths(e + 2 - size_t(v));
  uint64_t answer[4];
  auto lay = [&] { try_lay(file.data(), file.size(), UINT32_MAX, turns.data(), turns.size(), lands.data(), lands.size(), lengths.data(), lengths.size(), answer); };
  Plain plain = plain_lay(file.data(), file.size(), UINT32_MAX);
  lay();
  bool flat = plain.word == Plain::FLAT;
  if (answer[0] != 0 || answer[1] != uint64_t(plain.word) || answer[2] != uint64_t(plain.paths)) fail("the answers");
  if (!std::equal(turns.begin(), turns.end(), plain.turns.begin())) fail("the turns");
  if (boost_embeds(v, pairs) != flat) fail("Boost");
  Timed ours{lay}, plains{[&] { plain_lay(file.data(), file.size(), UINT32_MAX); }};
  Timed write{[&] { plate_write_sheet(file.data(), file.size(), sheet.data(), sheet.size()); }}, boosts{[&] { boost_embeds(v, pairs); }};
  clock_all({&ours, &plains, &write, &boosts});
  std::printf("| %s | %d | %zu | %s | %ld |", kind.c_str(), v, e, flat ? "FLAT" : "STUCK", ours.calls);
  put(ours, plains);
  put(write, boosts);
  if (!flat) {
    std::printf(" | | |\n");
    return;
  }
  if (plate_judge_sheet(sheet.data(), sheet_length) != PLATE_FLAT || !plain_judge(sheet.data(), sheet_length)) fail("the judges");
  Timed judge{[&] { plate_judge_sheet(sheet.data(), sheet_length); }}, judges{[&] { plain_judge(sheet.data(), sheet_length); }};
  clock_all({&judge, &judges});
  put(judge, judges);
  std::printf("\n");
}

int main(int argc, char **argv) {
  if (argc > 1) budget = std::atof(argv[1]) / 1000;
  std::printf("Microseconds a call, the least of 5 rounds of %.0f ms each, in which the calls of a line take turns; `repeats`: how often the plate was laid.\n\n", budget * 1000);
  std::printf("| plate | ports | channels | answer | repeats | lay | plain C++ | lay / plain | write a sheet | Boost | write / Boost | judge | plain C++ | judge / plain |\n");
  std::printf("|---|--:|--:|---|--:|--:|--:|--:|--:|--:|--:|--:|--:|--:|\n");
  for (int v : {10, 50, 100, 200}) {
    run("maximal planar", v, maximal(v));
    run("thin", v, thin(v));
    run("grid", v, grid(v));
    run("wheel", v, wheel(v));
    run("grid and one channel", v, crossed(v));
  }
  return 0;
}
