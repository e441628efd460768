// What a matcher keeps: regions, walks between defects, and trees.
#pragma once

#include <cstdint>
#include <memory>
#include <utility>
#include <vector>

#include "events.hpp"

namespace peer {

// No step, no edge, no defect: the boundary where a defect is expected.
constexpr int32_t NONE = -1;

// The last edge of a way from a defect to a vertex, and the step before it. Steps never change, so a walk stays what it is
// when regions shrink.
struct Step {
    int32_t before;
    int32_t edge;
};

// A walk between two defects, or from one to the boundary: the ways to both ends of an edge, by their last steps, and the edge.
// Without an edge it is two other walks, one after the other.
struct Walk {
    int32_t first, second;
    int32_t edge;
};

// A walk with its ends: two defects, or a defect and the boundary.
struct Link {
    int32_t from = NONE, to = NONE;
    int32_t walk = NONE;

    Link reversed() const { return {to, from, walk}; }
};

// A radius that grows with time, shrinks or stays.
struct Radius {
    int64_t at_zero = 0;
    int slope = 0;

    int64_t at(int64_t time) const { return at_zero + slope * time; }
};

struct TreeNode;

// A defect with the vertices around it, or a blossom with those around its children.
struct Region {
    uint32_t number;
    Radius radius;
    Region* parent;  // the blossom that holds it
    TreeNode* node;  // the node of which it is the plus or the minus region
    bool is_matched;
    bool waits;    // it is matched to a vertex of a later block
    Region* mate;  // none if it is matched to the boundary
    Link match;
    Wanted shrinking;             // when it next loses a vertex, or is at radius 0
    std::vector<uint32_t> shell;  // the vertices outside of its children, in order of arrival
    std::vector<std::pair<Region*, Link>> children;  // around the cycle, each with the link to the next one

    void begin(uint32_t new_number) {
        number = new_number;
        radius = {};
        parent = mate = nullptr;
        node = nullptr;
        is_matched = waits = false;
        shrinking = {};
        shell.clear();
        children.clear();
    }

    bool is_live() const { return !shell.empty() || !children.empty(); }
};

// A minus region with the plus region that it was matched to; a root has a plus region alone.
struct TreeNode {
    Region* minus = nullptr;
    Region* plus = nullptr;
    Link across;  // from minus to plus
    TreeNode* parent = nullptr;
    Link up;  // from minus to the parent's plus
    std::vector<TreeNode*> children;
    bool is_marked = false;
};

// What a look at a neighbour needs.
struct Cover {
    Region* region = nullptr;  // the outermost region that holds the vertex
    int64_t inward = 0;        // what added to its radius is how far it reaches beyond the vertex
};

// What else is known of a vertex in a region.
struct Reached {
    int64_t arrival = 0;    // the radius of the region in whose shell it is, when it was reached
    int32_t defect = NONE;  // the one that it was reached from
    int32_t step = NONE;    // the last one of the way from there
    Wanted look;            // when the next meeting is expected here
    bool is_touched = false;
};

// Values that are taken one by one and given back all at once. They keep their room.
template <class T>
class Pool {
    std::vector<std::unique_ptr<T>> values;
    size_t taken = 0;

 public:
    T* take() {
        if (taken == values.size()) values.push_back(std::make_unique<T>());
        return values[taken++].get();
    }

    void give_back() { taken = 0; }
    size_t size() const { return taken; }
    T* operator[](size_t i) { return values[i].get(); }
};

}  // namespace peer
