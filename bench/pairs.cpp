// Times the search for cheapest pairs against LEMON's Suurballe, on the same random networks in one run, and compares
// what the pairs cost. Every two nodes of a network are searched between, once by each.
#include <chrono>
#include <cstddef>
#include <cstdint>
#include <cstdio>
#include <cstdlib>
#include <random>
#include <vector>

#include <lemon/list_graph.h>
#include <lemon/smart_graph.h>
#include <lemon/suurballe.h>

// Crate pair_costs; the allocator that it takes first has no bytes, so nothing is passed for it.
extern "C" bool pair_costs(const std::uint32_t* words, std::size_t count, std::uint32_t* costs, std::size_t room);

namespace {

constexpr std::uint32_t NODES = 32;
constexpr std::uint32_t LINKS = 128;

struct Link {
  std::uint32_t tail, head, cost;
};

using Network = std::vector<Link>;
using Costs = std::vector<std::uint32_t>;
using Clock = std::chrono::steady_clock;

Network random_network(std::mt19937& random, std::uint32_t most_cost) {
  Network network;
  for (std::uint32_t e = 0; e < LINKS; ++e) {
    std::uint32_t tail = random() % NODES;
    std::uint32_t head = (tail + 1 + random() % (NODES - 1)) % NODES;
    std::uint32_t cost = 1 + random() % most_cost;
    network.push_back({tail, head, cost});
  }
  return network;
}

// A header, then two words for each link: ends and cost, capacity 10 and ceiling 64.
std::vector<std::uint32_t> words_of(const Network& network) {
  std::vector<std::uint32_t> words{1u << 28 | NODES << 16 | LINKS};
  for (const Link& link : network) {
    words.push_back(2u << 28 | link.tail << 22 | link.head << 16 | link.cost);
    words.push_back(3u << 28 | 10u << 12 | 64u << 5);
  }
  return words;
}

double seconds_since(Clock::time_point start) {
  return std::chrono::duration<double>(Clock::now() - start).count();
}

// Reading the words is timed too: once for all searches of a network.
double time_ours(const Network& network, Costs& costs) {
  std::vector<std::uint32_t> words = words_of(network);
  auto start = Clock::now();
  bool done = pair_costs(words.data(), words.size(), costs.data(), costs.size());
  double seconds = seconds_since(start);
  if (!done) {
    std::fprintf(stderr, "the network was refused\n");
    std::exit(1);
  }
  return seconds;
}

// Building the graph is timed too; one Suurballe object serves all searches of a network.
template <class Graph>
double time_lemon(const Network& network, Costs& costs) {
  auto start = Clock::now();
  Graph graph;
  std::vector<typename Graph::Node> nodes;
  for (std::uint32_t v = 0; v < NODES; ++v) nodes.push_back(graph.addNode());
  typename Graph::template ArcMap<int> length(graph);
  for (const Link& link : network) length[graph.addArc(nodes[link.tail], nodes[link.head])] = int(link.cost);
  lemon::Suurballe<Graph> search(graph, length);
  for (std::uint32_t s = 0; s < NODES; ++s) {
    for (std::uint32_t t = 0; t < NODES; ++t) {
      bool pair = s != t && search.run(nodes[s], nodes[t], 2) == 2;
      costs[s * NODES + t] = pair ? std::uint32_t(search.totalLength()) : 0;
    }
  }
  return seconds_since(start);
}

}  // namespace

int main(int argc, char** argv) {
  int networks = argc > 1 ? std::atoi(argv[1]) : 400;
  std::mt19937 random(1);
  double ours = 0, smart = 0, list = 0;
  std::size_t searches = 0, pairs = 0, differ = 0;
  for (int i = 0; i < networks; ++i) {
    // half of the networks with many ties
    Network network = random_network(random, i % 2 == 0 ? 20 : 65535);
    Costs a(NODES * NODES), b(NODES * NODES), c(NODES * NODES);
    ours += time_ours(network, a);
    smart += time_lemon<lemon::SmartDigraph>(network, b);
    list += time_lemon<lemon::ListDigraph>(network, c);
    searches += NODES * (NODES - 1);
    for (std::size_t k = 0; k < a.size(); ++k) {
      pairs += a[k] != 0;
      differ += a[k] != b[k] || a[k] != c[k];
    }
  }
  auto micros = [&](double seconds) { return 1e6 * seconds / double(searches); };
  std::printf("%d networks of %u nodes and %u links, %zu searches, %zu with a pair\n", networks, NODES, LINKS, searches, pairs);
  std::printf("find_pair                      %6.3f us a search\n", micros(ours));
  std::printf("LEMON Suurballe, SmartDigraph  %6.3f us a search, ratio %.2f\n", micros(smart), smart / ours);
  std::printf("LEMON Suurballe, ListDigraph   %6.3f us a search, ratio %.2f\n", micros(list), list / ours);
  std::printf(differ == 0 ? "all costs agree\n" : "%zu costs differ\n", differ);
  return differ == 0 ? 0 : 1;
}
