// The lightest correction of a shot, and the cuts that show that none is lighter, in a graph whose weights are taken without
// sign. Around each defect a region grows, all of them at once; where two meet, their alternating trees are matched or joined
// by a blossom. Events are taken in order of time, so that what no region reaches costs nothing.
//
// Weights are even, and within a block the radii that grow or shrink, as lines over time, all begin at numbers of one parity.
// So all meetings are at whole times.
#pragma once

#include "inputs.hpp"
#include "regions.hpp"

namespace peer {

// A value, and vertices that rise.
using Cut = std::pair<int64_t, std::vector<uint32_t>>;

class Matcher {
    // An edge from a vertex, to another real vertex or to the boundary.
    struct Arc {
        uint32_t to;  // the number of vertices if it leads to the boundary
        int32_t edge;
        int32_t weight;
    };

    struct Meeting {
        int64_t time = NEVER;
        const Arc* arc = nullptr;
    };

    uint32_t vertices;
    std::vector<uint32_t> first_arc;  // by vertex, with one more for the end of the last one's
    std::vector<Arc> arcs;
    std::vector<Cover> covers;
    std::vector<Reached> reached;
    std::vector<Region*> own_region;  // by defect
    std::vector<uint32_t> touched;    // the vertices whose covers, or what is known of them, may have changed
    std::vector<Step> steps;
    std::vector<Walk> walks;
    Pool<Region> regions;
    Pool<TreeNode> nodes;
    Events events;
    size_t unmatched = 0;  // the number of trees
    uint32_t limit = 0;    // vertices from this one on belong to later blocks, and count as boundary
    std::vector<Region*> waiting;   // those that are matched to vertices of later blocks, and perhaps others
    std::vector<Region*> inside;    // for each_vertex alone
    std::vector<char> is_odd;       // by edge, for correction alone
    std::vector<uint32_t> crossed;  // for correction alone

 public:
    explicit Matcher(const Graph& graph)
        : vertices(graph.vertices), covers(vertices), reached(vertices), own_region(vertices), is_odd(graph.edges.size()) {
        std::vector<std::vector<Arc>> arcs_at(vertices);
        for (uint32_t e = 0; e < graph.edges.size(); ++e) add_arcs(graph, e, arcs_at);
        for (auto& list : arcs_at) {
            keep_lightest(list);
            first_arc.push_back(static_cast<uint32_t>(arcs.size()));
            arcs.insert(arcs.end(), list.begin(), list.end());
        }
        first_arc.push_back(static_cast<uint32_t>(arcs.size()));
    }

    // Matches all defects. Vertices are taken `block` at a time, or all at once if that is 0: what is matched to a vertex of a
    // later block grows on when its block comes.
    void match_all(const std::vector<uint32_t>& defects, uint32_t block) {
        auto next = defects.begin();
        for (limit = 0; limit < vertices;) {
            limit = block == 0 || vertices - limit <= block ? vertices : limit + block;
            auto end = std::lower_bound(next, defects.end(), limit);
            match_block({next, end});
            next = end;
        }
    }

    // The edges of the correction, rising. It takes the matches apart, so it is called once.
    void take_correction(const std::vector<uint32_t>& defects, std::vector<uint32_t>& edges) {
        crossed.clear();
        for (uint32_t defect : defects) {
            Region* region = covers[defect].region;
            if (!region->is_matched) continue;
            cross(region->match.walk);
            resolve(region, region->match.from);
            if (region->mate) resolve(region->mate, region->match.to);
        }
        edges.clear();
        for (uint32_t edge : crossed) {
            if (is_odd[edge]) edges.push_back(edge);
            is_odd[edge] = 0;
        }
        std::sort(edges.begin(), edges.end());
    }

    // The cuts of all regions, rising.
    void list_cuts(std::vector<Cut>& cuts) {
        cuts.clear();
        for (size_t i = 0; i < regions.size(); ++i)
            if (regions[i]->is_live()) list_layers(*regions[i], cuts);
        std::sort(cuts.begin(), cuts.end(), [](const Cut& a, const Cut& b) { return a.second < b.second; });
    }

    // Makes all as it was before the shot.
    void reset() {
        for (uint32_t v : touched) {
            covers[v] = Cover();
            reached[v] = Reached();
            own_region[v] = nullptr;
        }
        touched.clear();
        waiting.clear();
        regions.give_back();
        nodes.give_back();
        steps.clear();
        walks.clear();
        events.clear();
    }

 private:
    // The graph.

    void add_arcs(const Graph& graph, uint32_t e, std::vector<std::vector<Arc>>& arcs_at) const {
        auto [u, v, weight] = graph.edges[e];
        auto edge = static_cast<int32_t>(e), length = static_cast<int32_t>(std::abs(weight));
        if (!graph.is_virtual[u]) arcs_at[u].push_back({graph.is_virtual[v] ? vertices : v, edge, length});
        if (!graph.is_virtual[v]) arcs_at[v].push_back({graph.is_virtual[u] ? vertices : u, edge, length});
    }

    // Keeps the lightest of parallel arcs. That to the boundary comes first.
    static void keep_lightest(std::vector<Arc>& list) {
        std::sort(list.begin(), list.end(), [](const Arc& a, const Arc& b) {
            return a.to != b.to ? a.to > b.to : a.weight != b.weight ? a.weight < b.weight : a.edge < b.edge;
        });
        auto is_parallel = [](const Arc& a, const Arc& b) { return a.to == b.to; };
        list.erase(std::unique(list.begin(), list.end(), is_parallel), list.end());
    }

    // Meetings.

    static Radius radius_at(const Cover& cover) {
        if (!cover.region) return {};
        return {cover.region->radius.at_zero + cover.inward, cover.region->radius.slope};
    }

    // The next meeting on an arc of a vertex, if nothing changes until then.
    Meeting next_meeting(uint32_t v) const {
        Radius radius = radius_at(covers[v]);
        if (radius.slope < 0) return {};
        return radius.slope > 0 ? next_of_growing(v, radius) : next_of_still(v, radius);
    }

    Meeting next_of_growing(uint32_t v, Radius radius) const {
        Meeting next;
        for (uint32_t i = first_arc[v]; i < first_arc[v + 1]; ++i) {
            const Arc& arc = arcs[i];
            int64_t time = arc.weight - radius.at_zero;
            if (arc.to < limit) {
                const Cover& other = covers[arc.to];
                if (other.region == covers[v].region) continue;
                Radius other_radius = radius_at(other);
                if (other_radius.slope < 0) continue;
                time -= other_radius.at_zero;
                if (other_radius.slope > 0) time >>= 1;
            }
            if (time < next.time) next = {time, &arc};
        }
        return next;
    }

    Meeting next_of_still(uint32_t v, Radius radius) const {
        Meeting next;
        for (uint32_t i = first_arc[v]; i < first_arc[v + 1]; ++i) {
            const Arc& arc = arcs[i];
            if (arc.to >= limit) continue;
            Radius other_radius = radius_at(covers[arc.to]);
            if (other_radius.slope <= 0) continue;
            int64_t time = arc.weight - radius.at_zero - other_radius.at_zero;
            if (time < next.time) next = {time, &arc};
        }
        return next;
    }

    void touch(uint32_t v) {
        if (reached[v].is_touched) return;
        reached[v].is_touched = true;
        touched.push_back(v);
    }

    void want_look(uint32_t v, int64_t time) {
        touch(v);
        events.want(reached[v].look, time, uint64_t{v} << 1);
    }

    void reschedule(uint32_t v) {
        int64_t time = next_meeting(v).time;
        if (time == NEVER) {
            reached[v].look.time = NEVER;
        } else {
            want_look(v, time);
        }
    }

    // Radii.

    // Calls a function, which may not call this one, with each vertex of a region.
    template <class Visit>
    void each_vertex(Region* region, Visit visit) {
        for (Region* next = region;; inside.pop_back()) {
            for (uint32_t v : next->shell) visit(v);
            for (auto& [child, link] : next->children) inside.push_back(child);
            if (inside.empty()) return;
            next = inside.back();
        }
    }

    void reschedule_all(Region* region) {
        each_vertex(region, [&](uint32_t v) { reschedule(v); });
    }

    void set_growing(Region* region) {
        region->radius = {region->radius.at(events.now) - events.now, 1};
        region->shrinking.time = NEVER;
        reschedule_all(region);
    }

    // Stops a radius. If it grew, the looks at its vertices come too early at most; if it shrank, they have to be rescheduled.
    void stop(Region* region) {
        region->radius = {region->radius.at(events.now), 0};
        region->shrinking.time = NEVER;
    }

    void set_still(Region* region) {
        bool shrank = region->radius.slope < 0;
        stop(region);
        if (shrank) reschedule_all(region);
    }

    void set_shrinking(Region* region) {
        region->radius = {region->radius.at(events.now) + events.now, -1};
        schedule_shrinking(region);
        each_vertex(region, [&](uint32_t v) { reached[v].look.time = NEVER; });
    }

    // The next time is that at which the region leaves its last vertex, or else is at radius 0.
    void schedule_shrinking(Region* region) {
        int64_t left = region->shell.empty() ? 0 : reached[region->shell.back()].arrival;
        events.want(region->shrinking, region->radius.at_zero - left, uint64_t{region->number} << 1 | 1);
    }

    // Matches and trees.

    Region* new_region() {
        auto number = static_cast<uint32_t>(regions.size());
        Region* region = regions.take();
        region->begin(number);
        return region;
    }

    TreeNode* new_node(Region* minus, Link across, Region* plus) {
        TreeNode* node = nodes.take();
        node->minus = minus;
        node->plus = plus;
        node->across = across;
        node->parent = nullptr;
        node->children.clear();
        node->is_marked = false;
        if (minus) minus->node = node;
        plus->node = node;
        return node;
    }

    void plant(Region* root) {
        new_node(nullptr, {}, root);
        ++unmatched;
    }

    static void set_match(Region* region, Region* mate, Link link) {
        region->is_matched = true;
        region->waits = false;
        region->mate = mate;
        region->match = link;
    }

    // The second one is absent if the first one is matched to the boundary.
    static void match(Region* first, Region* second, Link link) {
        set_match(first, second, link);
        if (second) set_match(second, first, link.reversed());
    }

    static void add_child(TreeNode* parent, TreeNode* child, Link up) {
        child->parent = parent;
        child->up = up;
        parent->children.push_back(child);
    }

    static void remove_child(TreeNode* parent, TreeNode* child) {
        auto& children = parent->children;
        children.erase(std::find(children.begin(), children.end(), child));
    }

    // Turns a tree so that the plus region of a node is its root.
    static void make_root(TreeNode* node) {
        std::vector<TreeNode*> path;
        for (TreeNode* next = node; next->parent; next = next->parent) path.push_back(next);
        for (size_t i = path.size(); i-- > 0;) swap_with_root(path[i]->parent, path[i]);
    }

    // Makes a child of a root the root, and that its child, with the child's minus region.
    static void swap_with_root(TreeNode* root, TreeNode* child) {
        remove_child(root, child);
        root->minus = child->minus;
        root->minus->node = root;
        root->across = child->up;
        child->minus = nullptr;
        child->parent = nullptr;
        add_child(child, root, child->across);
    }

    // Matches the two regions of each node below a root, and takes the root's region out of its tree.
    void dissolve(TreeNode* root) {
        root->plus->node = nullptr;
        std::vector<TreeNode*> below = std::move(root->children);
        root->children.clear();
        while (!below.empty()) {
            TreeNode* node = below.back();
            below.pop_back();
            below.insert(below.end(), node->children.begin(), node->children.end());
            match(node->minus, node->plus, node->across);
            node->minus->node = node->plus->node = nullptr;
            set_still(node->minus);
            set_still(node->plus);
        }
        --unmatched;
    }

    // Takes a plus region out of its tree, which is dissolved.
    void free_region(Region* region) {
        make_root(region->node);
        dissolve(region->node);
        set_still(region);
    }

    // Where the paths from two nodes to their roots meet.
    static TreeNode* common_node(TreeNode* first, TreeNode* second) {
        TreeNode* a = first;
        TreeNode* b = second;
        TreeNode* common = nullptr;
        while (!common && (a || b)) {
            common = mark(a);
            if (!common) common = mark(b);
        }
        for (TreeNode* node : {first, second})
            for (; node && node->is_marked; node = node->parent) node->is_marked = false;
        return common;
    }

    // Marks a node, if there is one, and goes on to its parent; gives the node if it is marked already.
    static TreeNode* mark(TreeNode*& node) {
        if (!node) return nullptr;
        if (node->is_marked) return node;
        node->is_marked = true;
        node = node->parent;
        return nullptr;
    }

    // Blossoms.

    // Two plus regions of one tree meet: the cycle becomes a blossom, the plus region of the node where their paths meet.
    void make_blossom(TreeNode* first, TreeNode* second, TreeNode* top, Link link) {
        Region* blossom = new_region();
        list_cycle(blossom, first, second, top, link);
        std::vector<TreeNode*> hanging;
        TreeNode* under_top = list_hanging(first, top, hanging);
        TreeNode* other_under_top = list_hanging(second, top, hanging);
        for (TreeNode* child : top->children)
            if (child != under_top && child != other_under_top) hanging.push_back(child);
        std::vector<Region*> shrank;
        for (auto& [child, next] : blossom->children) {
            if (child->radius.slope < 0) shrank.push_back(child);
            enclose(child, blossom);
        }
        blossom->radius = {-events.now, 1};
        blossom->node = top;
        top->plus = blossom;
        top->children = std::move(hanging);
        for (TreeNode* child : top->children) child->parent = top;
        for (Region* child : shrank) reschedule_all(child);
    }

    // The cycle from the top's plus region down to the first node, over the link, and up from the second one.
    static void list_cycle(Region* blossom, TreeNode* first, TreeNode* second, TreeNode* top, Link link) {
        std::vector<TreeNode*> down;
        for (TreeNode* node = first; node != top; node = node->parent) down.push_back(node);
        Region* last = top->plus;
        for (size_t i = down.size(); i-- > 0;) {
            TreeNode* node = down[i];
            blossom->children.push_back({last, node->up.reversed()});
            blossom->children.push_back({node->minus, node->across});
            last = node->plus;
        }
        blossom->children.push_back({last, link});
        for (TreeNode* node = second; node != top; node = node->parent) {
            blossom->children.push_back({node->plus, node->across.reversed()});
            blossom->children.push_back({node->minus, node->up});
        }
    }

    // Lists the nodes that hang on the path from a node up to the top, but not on the top. Gives the last node of the path
    // before the top.
    static TreeNode* list_hanging(TreeNode* node, TreeNode* top, std::vector<TreeNode*>& hanging) {
        TreeNode* below = nullptr;
        for (; node != top; below = node, node = node->parent)
            for (TreeNode* child : node->children)
                if (child != below) hanging.push_back(child);
        return below;
    }

    void enclose(Region* child, Region* blossom) {
        stop(child);
        child->parent = blossom;
        child->node = nullptr;
        each_vertex(child, [&](uint32_t v) {
            covers[v].region = blossom;
            covers[v].inward += child->radius.at_zero;
        });
    }

    void release(Region* child) {
        child->parent = nullptr;
        child->node = nullptr;
        each_vertex(child, [&](uint32_t v) {
            covers[v].region = child;
            covers[v].inward -= child->radius.at_zero;
        });
    }

    Region* child_with(Region* blossom, int32_t defect) const {
        Region* child = own_region[static_cast<uint32_t>(defect)];
        while (child->parent != blossom) child = child->parent;
        return child;
    }

    static size_t place_of(const Region* blossom, const Region* child) {
        size_t place = 0;
        while (blossom->children[place].first != child) ++place;
        return place;
    }

    // A cycle of children from one of them on, in the one direction or the other.
    struct Cycle {
        std::vector<std::pair<Region*, Link>> children;
        size_t start;
        bool is_forward;

        size_t place(size_t i) const {
            size_t count = children.size();
            return (start + (is_forward ? i : count - i)) % count;
        }
        Region* region(size_t i) const { return children[place(i)].first; }
        // From region i to the next one.
        Link link(size_t i) const {
            return is_forward ? children[place(i)].second : children[place(i + 1)].second.reversed();
        }
    };

    // A minus blossom at radius 0 falls apart. Its children from the one with the link to the parent to the one with the link to
    // the plus region, the way round that has an odd number of them, take its place in the tree; the others are matched.
    void expand(Region* blossom) {
        TreeNode* node = blossom->node;
        size_t start = place_of(blossom, child_with(blossom, node->up.from));
        size_t end = place_of(blossom, child_with(blossom, node->across.from));
        size_t count = blossom->children.size();
        size_t forward = (end + count - start) % count;
        Cycle cycle{std::move(blossom->children), start, forward % 2 == 0};
        blossom->children.clear();
        blossom->node = nullptr;
        size_t length = cycle.is_forward ? forward : count - forward;
        for (size_t i = 0; i < count; ++i) release(cycle.region(i));
        for (size_t i = length + 1; i + 1 < count; i += 2) match(cycle.region(i), cycle.region(i + 1), cycle.link(i));
        put_in_place(node, cycle, length);
        for (size_t i = 0; i <= length; ++i) {
            cycle.region(i)->is_matched = false;
            if (i % 2 == 0) {
                set_shrinking(cycle.region(i));
            } else {
                set_growing(cycle.region(i));
            }
        }
        for (size_t i = length + 1; i < count; ++i) reschedule_all(cycle.region(i));
    }

    // Puts regions 0 to `length` of a cycle between a node's parent and its plus region.
    void put_in_place(TreeNode* node, const Cycle& cycle, size_t length) {
        TreeNode* parent = node->parent;
        Link up = node->up;
        remove_child(parent, node);
        for (size_t i = 0; i < length; i += 2) {
            TreeNode* next = new_node(cycle.region(i), cycle.link(i), cycle.region(i + 1));
            add_child(parent, next, up);
            parent = next;
            up = cycle.link(i + 1).reversed();
        }
        node->minus = cycle.region(length);
        node->minus->node = node;
        add_child(parent, node, up);
    }

    // What happens at an event.

    // A meeting is expected at a vertex. What has changed since may put it off.
    void look(uint32_t v) {
        Meeting next = next_meeting(v);
        if (next.time == NEVER) return;
        want_look(v, next.time);
        if (next.time != events.now) return;
        const Arc& arc = *next.arc;
        Region* region = covers[v].region;
        if (arc.to >= limit) {
            meet_boundary(region, v, arc);
            return;
        }
        Region* other = covers[arc.to].region;
        if (!other) {
            absorb(region, v, arc.edge, arc.to);
        } else if (!region) {
            absorb(other, arc.to, arc.edge, v);
        } else {
            meet(region, other, {reached[v].defect, reached[arc.to].defect, new_walk(v, arc)});
        }
    }

    int32_t new_walk(uint32_t v, const Arc& arc) {
        walks.push_back({reached[v].step, arc.to < limit ? reached[arc.to].step : NONE, arc.edge});
        return static_cast<int32_t>(walks.size() - 1);
    }

    void meet_boundary(Region* region, uint32_t v, const Arc& arc) {
        match_freed(region, nullptr, {reached[v].defect, NONE, new_walk(v, arc)});
        region->waits = arc.to != vertices;
        if (region->waits) waiting.push_back(region);
    }

    void absorb(Region* region, uint32_t from, int32_t edge, uint32_t v) {
        touch(v);
        steps.push_back({reached[from].step, edge});
        reached[v].step = static_cast<int32_t>(steps.size() - 1);
        reached[v].defect = reached[from].defect;
        reached[v].arrival = region->radius.at(events.now);
        covers[v] = {region, -reached[v].arrival};
        region->shell.push_back(v);
        reschedule(v);
    }

    // Matches a plus region, freed from its tree, to one without a tree or to the boundary.
    void match_freed(Region* region, Region* other, Link link) {
        free_region(region);
        match(region, other, link);
    }

    // At least one of the two is a plus region.
    void meet(Region* first, Region* second, Link link) {
        if (!first->node) {
            std::swap(first, second);
            link = link.reversed();
        }
        if (!second->node) {
            meet_matched(first, second, link);
        } else if (TreeNode* top = common_node(first->node, second->node)) {
            make_blossom(first->node, second->node, top, link);
        } else {
            free_region(first);
            free_region(second);
            match(first, second, link);
        }
    }

    // Matches a plus region to one that was matched to the boundary, or else adds a matched pair to its tree.
    void meet_matched(Region* plus, Region* matched, Link link) {
        Region* mate = matched->mate;
        if (!mate) {
            match_freed(plus, matched, link);
            return;
        }
        matched->is_matched = mate->is_matched = false;
        add_child(plus->node, new_node(matched, matched->match, mate), link.reversed());
        set_shrinking(matched);
        set_growing(mate);
    }

    void shrink(Region* region) {
        if (region->shell.empty()) {
            expand(region);
        } else if (region->shell.size() == 1 && region->children.empty()) {
            meet_over(region->node);
        } else {
            uint32_t v = region->shell.back();
            region->shell.pop_back();
            covers[v] = Cover();
            reschedule(v);
            schedule_shrinking(region);
        }
    }

    // The minus region of a node is a defect at radius 0: the plus regions on both sides of it meet.
    void meet_over(TreeNode* node) {
        walks.push_back({node->up.walk, node->across.walk, NONE});
        auto walk = static_cast<int32_t>(walks.size() - 1);
        meet(node->parent->plus, node->plus, {node->up.to, node->across.to, walk});
    }

    // Defects in rising order, of one block.
    struct Defects {
        std::vector<uint32_t>::const_iterator first, last;

        auto begin() const { return first; }
        auto end() const { return last; }
    };

    void match_block(Defects defects) {
        for (uint32_t defect : defects) begin_at(defect);
        std::vector<Region*> earlier = std::move(waiting);
        waiting.clear();
        for (Region* region : earlier) {
            if (!region->waits) continue;
            region->waits = region->is_matched = false;
            plant(region);
            set_growing(region);
        }
        for (uint32_t defect : defects) reschedule(defect);
        Event event;
        while (unmatched > 0) {
            if (!events.pop(event)) fail("no event is left, though a defect is unmatched");
            happen(event);
        }
    }

    void happen(const Event& event) {
        auto number = static_cast<uint32_t>(event.key >> 1);
        bool is_of_region = event.key & 1;
        if (is_of_region) {
            if (events.is_due(regions[number]->shrinking, event)) shrink(regions[number]);
        } else {
            if (events.is_due(reached[number].look, event)) look(number);
        }
    }

    void begin_at(uint32_t defect) {
        Region* region = new_region();
        region->radius = {-events.now, 1};
        region->shell.push_back(defect);
        plant(region);
        touch(defect);
        own_region[defect] = region;
        covers[defect] = {region, 0};
        reached[defect].defect = static_cast<int32_t>(defect);
    }

    // The correction.

    void cross_way(int32_t step) {
        for (; step != NONE; step = steps[static_cast<uint32_t>(step)].before)
            cross_edge(steps[static_cast<uint32_t>(step)].edge);
    }

    void cross_edge(int32_t edge) {
        is_odd[static_cast<uint32_t>(edge)] ^= 1;
        crossed.push_back(static_cast<uint32_t>(edge));
    }

    // Crosses each edge of a walk once more.
    void cross(int32_t walk) {
        std::vector<int32_t> left{walk};
        while (!left.empty()) {
            auto [first, second, edge] = walks[static_cast<uint32_t>(left.back())];
            left.pop_back();
            if (edge == NONE) {
                left.insert(left.end(), {first, second});
            } else {
                cross_way(first);
                cross_edge(edge);
                cross_way(second);
            }
        }
    }

    // Crosses the walks of the matches inside a region that is matched at one of its defects.
    void resolve(Region* region, int32_t defect) {
        region->is_matched = false;
        std::vector<std::pair<Region*, int32_t>> left{{region, defect}};
        while (!left.empty()) {
            auto [blossom, at] = left.back();
            left.pop_back();
            if (blossom->children.empty()) continue;
            Region* child = child_with(blossom, at);
            left.push_back({child, at});
            size_t place = place_of(blossom, child), count = blossom->children.size();
            for (size_t i = 1; i < count; i += 2) {
                auto& [first, link] = blossom->children[(place + i) % count];
                Region* second = blossom->children[(place + i + 1) % count].first;
                cross(link.walk);
                left.push_back({first, link.from});
                left.push_back({second, link.to});
            }
        }
    }

    // The cuts.

    // Lists a cut for each stage of a region's growth: its children with as much of its shell as was reached then.
    void list_layers(Region& region, std::vector<Cut>& cuts) {
        int64_t radius = region.radius.at(events.now);
        std::vector<uint32_t> set;
        for (auto& [child, link] : region.children) each_vertex(child, [&](uint32_t v) { set.push_back(v); });
        auto next = region.shell.begin();
        for (int64_t from = 0; from < radius;) {
            for (; next != region.shell.end() && reached[*next].arrival <= from; ++next) set.push_back(*next);
            int64_t to = next == region.shell.end() ? radius : std::min(radius, reached[*next].arrival);
            cuts.push_back({to - from, set});
            std::sort(cuts.back().second.begin(), cuts.back().second.end());
            from = to;
        }
    }
};

}  // namespace peer
