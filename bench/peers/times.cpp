// times FILE RUNS MILLISECONDS: how long each tool takes for the graphs of FILE, which are parted by their leaves: one, several, and too many. For
// each part that has graphs a line of JSON: how many graphs there are, their fewest and most leaves, and nanoseconds a graph by tool.
//
// A run takes each tool in turn, for at least so many milliseconds, so that what slows the machine for a while slows all of them. The median of the
// runs counts. Encoding and canonising are timed apart; canonising is on the lean encoding.
#include "canonisers.h"
#include "library.h"

#include <algorithm>
#include <chrono>
#include <cstdio>
#include <cstdlib>
#include <exception>
#include <functional>

namespace {

struct Graph {
    Numbers numbers;
    int leaves;  // MAX_LEAVES + 1 where it is refused
};

struct Tool {
    const char *name;
    std::function<void(size_t)> run;  // on the graph with this index
    int passes = 1;                   // over all graphs, in a run
    std::vector<double> seconds = {};
};

double now() { return std::chrono::duration<double>(std::chrono::steady_clock::now().time_since_epoch()).count(); }

// Seconds for a pass over all graphs.
double time_passes(const Tool &tool, size_t graphs, int passes) {
    const double start = now();
    for (int pass = 0; pass < passes; pass++)
        for (size_t i = 0; i < graphs; i++) tool.run(i);
    return (now() - start) / passes;
}

double median(std::vector<double> values) {
    std::sort(values.begin(), values.end());
    return values[values.size() / 2];
}

std::vector<Tool> tools_for(const std::vector<Graph> &graphs, const std::vector<Encoding> &encodings) {
    static plain_answer answer;
    static LeanEncoder lean;
    static Encoding encoding;
    static std::vector<int> place;
    const auto plain = [&graphs](bool prune) {
        return [&graphs, prune](size_t i) { plain_form(graphs[i].numbers.data(), graphs[i].numbers.size(), prune, &answer); };
    };
    const auto canonise = [&encodings](Canoniser canoniser) { return [&encodings, canoniser](size_t i) { canoniser(encodings[i], place); }; };
    return {{"library", [&graphs](size_t i) { run_library(graphs[i].numbers); }},
            {"plain", plain(false)},
            {"pruned", plain(true)},
            {"encode", [&graphs](size_t i) { lean.encode(graphs[i].numbers, encoding); }},
            {"nauty_dense", canonise(nauty_dense)},
            {"nauty_sparse", canonise(nauty_sparse)},
            {"bliss", canonise(bliss_digraph)}};
}

void time_part(const char *part, const std::vector<Graph> &graphs, int runs, double seconds) {
    if (graphs.empty()) return;
    std::vector<Encoding> encodings(graphs.size());
    LeanEncoder lean;
    for (size_t i = 0; i < graphs.size(); i++) lean.encode(graphs[i].numbers, encodings[i]);
    auto tools = tools_for(graphs, encodings);
    for (Tool &tool : tools) {
        time_passes(tool, graphs.size(), 1);  // what is read for the first time is slow
        tool.passes = 1 + static_cast<int>(seconds / time_passes(tool, graphs.size(), 1));
    }
    for (int run = 0; run < runs; run++)
        for (Tool &tool : tools) tool.seconds.push_back(time_passes(tool, graphs.size(), tool.passes));
    const auto by_leaves = [](const Graph &x, const Graph &y) { return x.leaves < y.leaves; };
    const auto [fewest, most] = std::minmax_element(graphs.begin(), graphs.end(), by_leaves);
    std::printf("{\"part\": \"%s\", \"graphs\": %zu, \"fewest\": %d, \"most\": %d", part, graphs.size(), fewest->leaves, most->leaves);
    for (const Tool &tool : tools) std::printf(", \"%s\": %.1f", tool.name, median(tool.seconds) / static_cast<double>(graphs.size()) * 1e9);
    std::puts("}");
}

}  // namespace

int main(int argc, char **argv) try {
    if (argc != 4) return std::fputs("usage: times FILE RUNS MILLISECONDS\n", stderr), 2;
    const int runs = std::atoi(argv[2]);
    const double seconds = std::atof(argv[3]) / 1000;
    std::vector<Graph> one, several, refused;
    plain_answer answer;
    for (Numbers &numbers : read_graphs(argv[1])) {
        plain_form(numbers.data(), numbers.size(), true, &answer);
        if (answer.refusal != 0 && answer.refusal != 5) throw std::runtime_error("a graph is no graph or too large");
        auto &part = answer.leaves == 1 ? one : answer.refusal == 0 ? several : refused;
        part.push_back({std::move(numbers), answer.leaves});
    }
    time_part("one", one, runs, seconds);
    time_part("several", several, runs, seconds);
    time_part("refused", refused, runs, seconds);
    return 0;
} catch (const std::exception &error) {
    return std::fprintf(stderr, "%s\n", error.what()), 2;
}
