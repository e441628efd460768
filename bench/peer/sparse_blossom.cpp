// An exact decoder on one thread, which isn't proved. It writes the same report as the program's `decode`: corrections of least
// weight with their cuts.
//
//   sparse_blossom --graph NAME --shots NAME --format 01|b8 [--block N]
//
// Vertices are taken N at a time in rising order (0: all at once; default: 0 up to 32,768 vertices, else 8192). What is matched
// to a later vertex grows on in a later block. That keeps the work of a long stream of rounds in the processor's cache.
#include <concepts>
#include <iterator>
#include <string_view>

#include "components.hpp"
#include "matcher.hpp"

using namespace peer;

namespace {

constexpr uint32_t MOST_VERTICES_AT_ONCE = 32768, BLOCK = 8192;

// The negative edges of a graph. A correction differs from them by one of absolute weights.
struct Negatives {
    int64_t base = 0;
    std::vector<uint32_t> edges;
    std::vector<uint32_t> flipped;  // the real vertices at which an odd number of them ends

    explicit Negatives(const Graph& graph) {
        std::vector<char> is_flipped(graph.vertices, 0);
        for (uint32_t e = 0; e < graph.edges.size(); ++e) {
            auto [u, v, weight] = graph.edges[e];
            if (weight >= 0) continue;
            base += weight;
            edges.push_back(e);
            is_flipped[u] ^= 1;
            is_flipped[v] ^= 1;
        }
        for (uint32_t v : graph.detectors)
            if (is_flipped[v]) flipped.push_back(v);
    }
};

// Puts what is in exactly one of two rising lists in place of another.
void find_differences(const std::vector<uint32_t>& a, const std::vector<uint32_t>& b, std::vector<uint32_t>& found) {
    found.clear();
    std::set_symmetric_difference(a.begin(), a.end(), b.begin(), b.end(), std::back_inserter(found));
}

int64_t weight_of(const Graph& graph, const std::vector<uint32_t>& edges) {
    int64_t weight = 0;
    for (uint32_t e : edges) weight += graph.edges[e].weight;
    return weight;
}

// The text of a report, written piece by piece.
class Report {
    static constexpr size_t PIECE = 1 << 20;

    std::string text = "fusion-report 2\n";
    uint64_t rows = 0, odd_rows = 0;

 public:
    void add_odd(uint32_t vertex) {
        add("shot ", rows++, " odd ", vertex, "\n");
        ++odd_rows;
        write_if_long();
    }

    void add_row(const std::vector<uint32_t>& edges, int64_t base, int64_t weight, const std::vector<Cut>& cuts) {
        add("shot ", rows++, "\nedges");
        add_each(edges);
        add("\nbase ", base, "\nweight ", weight, "\n");
        for (const auto& [value, set] : cuts) {
            add("cut ", value);
            add_each(set);
            add("\n");
        }
        write_if_long();
    }

    void end() {
        add("done ", rows, " odd ", odd_rows, " units ", rows - odd_rows, " fusions ", 0, "\n");
        write();
        if (std::fflush(stdout) != 0) fail("can't write");
    }

 private:
    template <class... Parts>
    void add(Parts... parts) {
        (add_part(parts), ...);
    }

    void add_part(std::string_view words) { text += words; }

    template <std::integral Number>
    void add_part(Number number) {
        char digits[20];
        auto end = std::to_chars(digits, digits + sizeof digits, number).ptr;
        text.append(digits, end);
    }

    void add_each(const std::vector<uint32_t>& numbers) {
        for (uint32_t number : numbers) {
            text += ' ';
            add_part(number);
        }
    }

    void write_if_long() {
        if (text.size() > PIECE) write();
    }

    void write() {
        if (std::fwrite(text.data(), 1, text.size(), stdout) != text.size()) fail("can't write");
        text.clear();
    }
};

uint32_t block_of(const std::string& option, const Graph& graph) {
    if (option.empty()) return graph.vertices <= MOST_VERTICES_AT_ONCE ? 0 : BLOCK;
    uint32_t block = 0;
    auto [rest, error] = std::from_chars(option.data(), option.data() + option.size(), block);
    if (error != std::errc() || *rest != '\0') fail("the block is no number");
    return block;
}

// Decodes all shots; true if each has a correction.
bool decode(const Graph& graph, Shots& shots, uint32_t block) {
    Components components(graph);
    Negatives negatives(graph);
    Matcher matcher(graph);
    Report report;
    bool all_have = true;
    std::vector<uint32_t> shot, defects, exchanged, edges;
    std::vector<Cut> cuts;
    while (shots.next(shot)) {
        if (auto odd = components.first_odd(shot)) {
            report.add_odd(*odd);
            all_have = false;
            continue;
        }
        find_differences(shot, negatives.flipped, defects);
        matcher.match_all(defects, block);
        matcher.take_correction(defects, exchanged);
        matcher.list_cuts(cuts);
        matcher.reset();
        find_differences(exchanged, negatives.edges, edges);
        report.add_row(edges, negatives.base, weight_of(graph, edges), cuts);
    }
    report.end();
    return all_have;
}

}  // namespace

int main(int argc, char** argv) {
    Options options = read_options(argc, argv, {{"--graph", ""}, {"--shots", ""}, {"--format", ""}, {"--block", ""}});
    Graph graph = read_graph(options["--graph"]);
    Shots shots(graph, options["--format"], options["--shots"]);
    return decode(graph, shots, block_of(options["--block"], graph)) ? 0 : 1;
}
