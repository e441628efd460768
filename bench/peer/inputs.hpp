// What both programs read: options, a graph in JSON, and shots in format 01 or b8. An input that is found to be invalid ends
// the program with status 2. Not every invalid one is found.
#pragma once

#include <algorithm>
#include <bit>
#include <charconv>
#include <cstdint>
#include <cstdio>
#include <cstdlib>
#include <cstring>
#include <filesystem>
#include <map>
#include <string>
#include <system_error>
#include <utility>
#include <vector>

namespace peer {

constexpr int64_t MOST_VERTICES = 1 << 20;
constexpr int64_t MOST_WEIGHT = 1 << 30;

[[noreturn]] inline void fail(const std::string& why) {
    std::fprintf(stderr, "error: %s\n", why.c_str());
    std::exit(2);
}

using Options = std::map<std::string, std::string>;

// The options of a command line, each a name and a value; those that it doesn't have keep the given values.
inline Options read_options(int count, char** words, Options options) {
    for (int i = 1; i < count; i += 2) {
        auto option = options.find(words[i]);
        if (option == options.end()) fail(std::string("unknown option ") + words[i]);
        if (i + 1 == count) fail(std::string("no value of ") + words[i]);
        option->second = words[i + 1];
    }
    return options;
}

inline std::string read_file(const std::string& name) {
    std::FILE* file = std::fopen(name.c_str(), "rb");
    if (!file) fail("can't open " + name);
    std::string bytes;
    std::error_code unknown;
    auto size = std::filesystem::file_size(name, unknown);
    if (!unknown) bytes.reserve(size);
    std::vector<char> piece(1 << 16);
    while (size_t count = std::fread(piece.data(), 1, piece.size(), file)) bytes.append(piece.data(), count);
    if (std::ferror(file)) fail("can't read " + name);
    std::fclose(file);
    return bytes;
}

struct Edge {
    uint32_t u, v;
    int64_t weight;
};

struct Graph {
    uint32_t vertices = 0;
    std::vector<Edge> edges;
    std::vector<char> is_virtual;
    std::vector<uint32_t> detectors;  // the real vertices, rising
};

// Reads JSON from its start to its end, as far as a graph needs it.
class JsonReader {
    const char* at;
    const char* end;

 public:
    explicit JsonReader(const std::string& text) : at(text.data()), end(text.data() + text.size()) {}

    // The next character that isn't blank.
    char peek() {
        while (at < end && (*at == ' ' || *at == '\n' || *at == '\t' || *at == '\r')) ++at;
        if (at == end) fail("the graph ends early");
        return *at;
    }

    bool take(char wanted) {
        if (peek() != wanted) return false;
        ++at;
        return true;
    }

    void need(char wanted) {
        if (!take(wanted)) fail(std::string("the graph lacks a ") + wanted);
    }

    int64_t number(int64_t least, int64_t most) {
        peek();
        int64_t value = 0;
        auto [rest, error] = std::from_chars(at, end, value);
        if (error != std::errc() || value < least || value > most) fail("the graph has a number out of range");
        at = rest;
        return value;
    }

    // A string, its escapes as they are written.
    std::string string() {
        need('"');
        const char* start = at;
        while (at < end && *at != '"') at += *at == '\\' && end - at > 1 ? 2 : 1;
        if (at == end) fail("the graph ends in a string");
        return {start, at++};
    }

    // Passes over a value.
    void skip() {
        size_t depth = 0;
        do {
            char first = peek();
            if (first == '"') {
                string();
                continue;
            }
            if (first == '{' || first == '[') ++depth;
            if (first == '}' || first == ']') --depth;
            ++at;
            if (!std::strchr("{}[],:", first)) skip_word();
        } while (depth > 0);
    }

    template <class ReadEntry>
    void each_entry(char open, char close, ReadEntry read_entry) {
        need(open);
        if (take(close)) return;
        do read_entry();
        while (take(','));
        need(close);
    }

 private:
    void skip_word() {
        while (at < end && !std::strchr(",]} \n\t\r", *at)) ++at;
    }
};

inline Edge read_edge(JsonReader& json) {
    json.need('[');
    auto u = static_cast<uint32_t>(json.number(0, MOST_VERTICES));
    json.need(',');
    auto v = static_cast<uint32_t>(json.number(0, MOST_VERTICES));
    json.need(',');
    int64_t weight = json.number(-MOST_WEIGHT, MOST_WEIGHT);
    json.need(']');
    if (u == v) fail("an edge joins a vertex to itself");
    if (weight % 2 != 0) fail("a weight is odd");
    return {u, v, weight};
}

// Marks the virtual vertices, and lists all others.
inline void divide_vertices(Graph& graph, const std::vector<uint32_t>& virtuals) {
    graph.is_virtual.assign(graph.vertices, 0);
    for (uint32_t v : virtuals) {
        if (v >= graph.vertices) fail("a virtual vertex is out of range");
        graph.is_virtual[v] = 1;
    }
    for (uint32_t v = 0; v < graph.vertices; ++v)
        if (!graph.is_virtual[v]) graph.detectors.push_back(v);
}

inline Graph read_graph(const std::string& name) {
    std::string text = read_file(name);
    JsonReader json(text);
    Graph graph;
    std::vector<uint32_t> virtuals;
    json.each_entry('{', '}', [&] {
        std::string member = json.string();
        json.need(':');
        if (member == "vertex_num") {
            graph.vertices = static_cast<uint32_t>(json.number(0, MOST_VERTICES));
        } else if (member == "weighted_edges") {
            graph.edges.clear();
            json.each_entry('[', ']', [&] { graph.edges.push_back(read_edge(json)); });
        } else if (member == "virtual_vertices") {
            virtuals.clear();
            json.each_entry('[', ']', [&] { virtuals.push_back(static_cast<uint32_t>(json.number(0, MOST_VERTICES))); });
        } else {
            json.skip();
        }
    });
    for (const Edge& edge : graph.edges)
        if (edge.u >= graph.vertices || edge.v >= graph.vertices) fail("an end of an edge is out of range");
    divide_vertices(graph, virtuals);
    return graph;
}

// The shots of a file, one after another.
class Shots {
    static_assert(std::endian::native == std::endian::little);

    const std::vector<uint32_t>& detectors;
    bool is_packed;
    std::string bytes;
    size_t at = 0;

 public:
    Shots(const Graph& graph, const std::string& format, const std::string& name)
        : detectors(graph.detectors), is_packed(format == "b8"), bytes(read_file(name)) {
        if (format != "01" && format != "b8") fail("the format is neither 01 nor b8");
    }

    // Puts the next shot's defects, as rising vertices, in place of others; false if there is none.
    bool next(std::vector<uint32_t>& defects) {
        defects.clear();
        if (at == bytes.size()) return false;
        if (is_packed) {
            next_packed(defects);
        } else {
            next_line(defects);
        }
        return true;
    }

 private:
    void next_packed(std::vector<uint32_t>& defects) {
        size_t size = (detectors.size() + 7) / 8;
        if (size == 0 || size > bytes.size() - at) fail("a shot has another number of bytes");
        for (size_t i = 0; i < size; i += 8) {
            uint64_t bits = 0;
            std::memcpy(&bits, bytes.data() + at + i, std::min<size_t>(8, size - i));
            for (; bits; bits &= bits - 1) {
                size_t detector = i * 8 + static_cast<size_t>(std::countr_zero(bits));
                if (detector >= detectors.size()) fail("a bit after the last detector is 1");
                defects.push_back(detectors[detector]);
            }
        }
        at += size;
    }

    void next_line(std::vector<uint32_t>& defects) {
        size_t end = std::min(bytes.find('\n', at), bytes.size());
        const char* line = bytes.data() + at;
        const char* line_end = bytes.data() + (end > at && bytes[end - 1] == '\r' ? end - 1 : end);
        if (static_cast<size_t>(line_end - line) != detectors.size()) fail("a shot has another number of digits");
        const char* digit = line;
        while ((digit = static_cast<const char*>(std::memchr(digit, '1', static_cast<size_t>(line_end - digit)))))
            defects.push_back(detectors[static_cast<size_t>(digit++ - line)]);
        at = std::min(end + 1, bytes.size());
    }
};

}  // namespace peer
