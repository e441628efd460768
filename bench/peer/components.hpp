// Which shots have no correction.
#pragma once

#include <optional>

#include "inputs.hpp"

namespace peer {

// The components of a graph. A shot has no correction if one without a virtual vertex holds an odd number of its defects.
class Components {
    std::vector<uint32_t> least;  // by vertex: the least vertex of its component
    std::vector<char> is_closed;  // by least vertex: the component has no virtual vertex
    std::vector<char> is_odd;     // by least vertex: the parity of a shot's defects, all even between two shots
    bool any_closed = false;

 public:
    explicit Components(const Graph& graph)
        : least(graph.vertices), is_closed(graph.vertices, 1), is_odd(graph.vertices, 0) {
        for (uint32_t v = 0; v < graph.vertices; ++v) least[v] = v;
        for (const Edge& edge : graph.edges) {
            auto [low, high] = std::minmax({find(edge.u), find(edge.v)});
            least[high] = low;
        }
        for (uint32_t v = 0; v < graph.vertices; ++v) least[v] = find(v);
        for (uint32_t v = 0; v < graph.vertices; ++v)
            if (graph.is_virtual[v]) is_closed[least[v]] = 0;
        for (uint32_t v = 0; v < graph.vertices; ++v) any_closed = any_closed || is_closed[least[v]];
    }

    // The least vertex of the first odd component without a virtual vertex, if there is one.
    std::optional<uint32_t> first_odd(const std::vector<uint32_t>& defects) {
        if (!any_closed) return std::nullopt;
        for (uint32_t v : defects) is_odd[least[v]] ^= 1;
        std::optional<uint32_t> first;
        for (uint32_t v : defects) {
            uint32_t name = least[v];
            if (is_closed[name] && is_odd[name] && (!first || name < *first)) first = name;
        }
        for (uint32_t v : defects) is_odd[least[v]] = 0;
        return first;
    }

 private:
    uint32_t find(uint32_t v) {
        for (; least[v] != v; v = least[v]) least[v] = least[least[v]];
        return v;
    }
};

}  // namespace peer
