// The events of a matcher, in order of time.
#pragma once

#include <algorithm>
#include <array>
#include <bit>
#include <cstdint>
#include <limits>
#include <vector>

namespace peer {

constexpr int64_t NEVER = std::numeric_limits<int64_t>::max();

struct Event {
    int64_t time;
    uint64_t key;  // whose event it is
};

// When one vertex or region has its next event. An event in the queue that isn't wanted any more stays there until its turn,
// and one that is wanted later than it stands there is put back.
struct Wanted {
    int64_t time = NEVER;    // the time that is wanted
    int64_t queued = NEVER;  // the earliest time at which it stands in the queue
};

// A radix heap: bucket b has the events whose time differs from now at bit b - 1 and at none above; bucket 0 has those of now.
class Events {
    std::array<std::vector<Event>, 64> buckets;
    uint64_t filled = 0;  // bit b is 1 if bucket b has events

 public:
    int64_t now = 0;

    void want(Wanted& wanted, int64_t time, uint64_t key) {
        wanted.time = time;
        if (time < wanted.queued) {
            wanted.queued = time;
            push({time, key});
        }
    }

    // Whether an event that was popped is the one that is wanted now.
    bool is_due(Wanted& wanted, const Event& event) {
        if (event.time != wanted.queued) return false;
        wanted.queued = NEVER;
        if (wanted.time == NEVER) return false;
        if (wanted.time != event.time) {
            wanted.queued = wanted.time;
            push({wanted.time, event.key});
            return false;
        }
        wanted.time = NEVER;
        return true;
    }

    // Takes an event of the least time, which becomes now; false if there is none.
    bool pop(Event& event) {
        if (!filled) return false;
        if (!(filled & 1)) advance();
        event = buckets[0].back();
        buckets[0].pop_back();
        if (buckets[0].empty()) filled &= ~uint64_t{1};
        return true;
    }

    void clear() {
        for (; filled; filled &= filled - 1) buckets[static_cast<size_t>(std::countr_zero(filled))].clear();
        now = 0;
    }

 private:
    void push(Event event) {
        auto bucket = static_cast<size_t>(std::bit_width(static_cast<uint64_t>(event.time) ^ static_cast<uint64_t>(now)));
        buckets[bucket].push_back(event);
        filled |= uint64_t{1} << bucket;
    }

    // Moves now to the least time in the first bucket, whose events then belong to lower buckets.
    void advance() {
        auto first = static_cast<size_t>(std::countr_zero(filled));
        auto& events = buckets[first];
        now = std::min_element(events.begin(), events.end(), [](auto& a, auto& b) { return a.time < b.time; })->time;
        for (const Event& event : events) push(event);
        events.clear();
        filled &= ~(uint64_t{1} << first);
    }
};

}  // namespace peer
