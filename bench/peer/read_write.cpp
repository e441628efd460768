// Reads a graph and shots as a decoder does, and writes the bytes of a report that is given: what a decoder takes at least.
//
//   read_write --graph NAME --shots NAME --format 01|b8 --report NAME
#include "inputs.hpp"

using namespace peer;

int main(int argc, char** argv) {
    Options options = read_options(argc, argv, {{"--graph", ""}, {"--shots", ""}, {"--format", ""}, {"--report", ""}});
    Graph graph = read_graph(options["--graph"]);
    Shots shots(graph, options["--format"], options["--shots"]);
    std::vector<uint32_t> defects;
    while (shots.next(defects)) {
    }
    std::string report = read_file(options["--report"]);
    if (std::fwrite(report.data(), 1, report.size(), stdout) != report.size()) fail("can't write");
}
