// The fewest rounds of a table by a general maximum flow: LEMON's push-relabel algorithm, with a binary search for the
// number of rounds. The masks of the table come on standard input, one a line. The rounds go to standard output, the time in
// nanoseconds to standard error; what is timed begins with the masks in memory, and makes the graph once.
#include <chrono>
#include <cstdint>
#include <iostream>
#include <vector>

#include <lemon/preflow.h>
#include <lemon/smart_graph.h>

using lemon::SmartDigraph;

namespace {

constexpr int kSources = 32;

// A node for each chunk that some source has, an arc to it of capacity 1, and arcs on to its sources.
class Network {
 public:
  explicit Network(const std::vector<std::uint32_t>& masks) : capacity_(graph_) {
    start_ = graph_.addNode();
    end_ = graph_.addNode();
    std::vector<SmartDigraph::Node> sources;
    for (int source = 0; source < kSources; ++source) {
      sources.push_back(graph_.addNode());
      last_.push_back(graph_.addArc(sources[source], end_));
    }
    for (const std::uint32_t mask : masks) {
      if (mask == 0) continue;
      ++chunks_;
      const SmartDigraph::Node chunk = graph_.addNode();
      capacity_[graph_.addArc(start_, chunk)] = 1;
      for (int source = 0; source < kSources; ++source) {
        if ((mask >> source & 1) != 0) capacity_[graph_.addArc(chunk, sources[source])] = 1;
      }
    }
  }

  // Whether all chunks can be read in so many rounds.
  bool fits(int rounds) {
    for (const SmartDigraph::Arc arc : last_) capacity_[arc] = rounds;
    lemon::Preflow<SmartDigraph> flow(graph_, capacity_, start_, end_);
    flow.runMinCut();
    return flow.flowValue() == chunks_;
  }

  int chunks() const { return chunks_; }

 private:
  SmartDigraph graph_;
  SmartDigraph::ArcMap<int> capacity_;
  SmartDigraph::Node start_;
  SmartDigraph::Node end_;
  std::vector<SmartDigraph::Arc> last_;
  int chunks_ = 0;
};

}  // namespace

int main() {
  std::vector<std::uint32_t> masks;
  for (std::uint32_t mask; std::cin >> mask;) masks.push_back(mask);

  const auto begin = std::chrono::steady_clock::now();
  Network network(masks);
  int too_few = -1;
  int enough = network.chunks();
  while (enough - too_few > 1) {
    const int middle = too_few + (enough - too_few) / 2;
    (network.fits(middle) ? enough : too_few) = middle;
  }
  const std::chrono::nanoseconds time = std::chrono::steady_clock::now() - begin;

  std::cout << "rounds " << enough << '\n';
  std::cerr << "flow " << time.count() << '\n';
}
