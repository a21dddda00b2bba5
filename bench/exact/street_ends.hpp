// Extra drives as a least pairing of street ends, with no distances between crossings: in a sparse graph, by a queue of what happens at what time.
#pragma once
#include <algorithm>
#include <cstdint>
#include <functional>
#include <queue>
#include <stdexcept>
#include <tuple>
#include <utility>
#include <vector>
#include "../planner/town.hpp"

// A graph whose points are to be paired along its edges at least cost. Some are paired at the beginning, by edges of no cost; no edge costs less than nothing.
// Trees grow from all points that are single, and each takes from what stands outside at the same pace.
class SparsePairing {
  public:
    explicit SparsePairing(int points) : rings(points), price(points, 0), paired(points, none), at(points) {}

    int add(int one, int two, int64_t cost) {
        const int e = edges.size();
        edges.push_back({one, two, 2 * cost});
        at[one].push_back(e);
        at[two].push_back(e);
        return e;
    }

    void pair(int e) { paired[edges[e].one] = paired[edges[e].two] = e; }

    // What the edges of a least pairing cost.
    int64_t run() {
        while (std::find(paired.begin(), paired.end(), none) != paired.end()) grow();
        int64_t twice = 0;
        for (size_t v = 0; v < paired.size(); v++) twice += edges[paired[v]].cost;
        return twice / 4;
    }

  private:
    static constexpr int none = -1;
    enum Pace { shrinks = -1, stands = 0, grows = 1 };

    struct Edge {
        int one, two;
        int64_t cost;
        int across(int v) const { return one ^ two ^ v; }
    };

    // A point, or an odd number of rings that are bound together round about. Its head is the one of them with the point that is paired outside.
    struct Ring {
        int up = none, after = none, link = none, head = none;  // after: the next round about in the ring above, over the edge link
        int by = none;                                          // the edge over which its tree came to it
        Pace pace = stands;
        int64_t since = 0, weight = 0;  // the weight is of the time when it took its pace
        bool gone = false;
    };

    // An edge between trees or out of one, or the ring that has lost its weight.
    struct Happening {
        int64_t time;
        int edge, ring;
        bool operator>(const Happening &other) const { return time > other.time; }
    };

    std::vector<Edge> edges;
    std::vector<Ring> rings;
    std::vector<int64_t> price;
    std::vector<int> paired;
    std::vector<std::vector<int>> at;
    std::vector<int> touched;
    std::priority_queue<Happening, std::vector<Happening>, std::greater<Happening>> queue;
    int64_t now = 0;

    bool is_point(int r) const { return r < (int)price.size(); }

    int top(int v) const {
        while (rings[v].up != none) v = rings[v].up;
        return v;
    }

    // The part of a ring in which a point lies.
    int part_of(int ring, int v) const {
        while (rings[v].up != ring) v = rings[v].up;
        return v;
    }

    bool holds(int ring, int v) const {
        while (v != ring && rings[v].up != none) v = rings[v].up;
        return v == ring;
    }

    int base(int r) const {
        while (!is_point(r)) r = rings[r].head;
        return r;
    }

    int64_t price_now(int v) const {
        const Ring &t = rings[top(v)];
        return price[v] + t.pace * (now - t.since);
    }

    int64_t slack(int e) const { return edges[e].cost - price_now(edges[e].one) - price_now(edges[e].two); }

    template <class Each> void each_part(int ring, Each each) {
        int part = rings[ring].head;
        do {
            const int after = rings[part].after;
            each(part);
            part = after;
        } while (part != rings[ring].head);
    }

    template <class Each> void each_point(int ring, Each each) {
        if (is_point(ring))
            each(ring);
        else
            each_part(ring, [&](int part) { each_point(part, each); });
    }

    // The ring goes on at another pace from now on.
    void set_pace(int r, Pace pace) {
        const int64_t change = rings[r].pace * (now - rings[r].since);
        if (change != 0) each_point(r, [&](int v) { price[v] += change; });
        rings[r].weight += change;
        rings[r].since = now;
        rings[r].pace = pace;
    }

    // When an edge will have no slack, if it is one at which something happens.
    void wait_for(int e) {
        const int one = top(edges[e].one), two = top(edges[e].two);
        const int pace = rings[one].pace + rings[two].pace;
        if (one != two && pace > 0) queue.push({now + slack(e) / pace, e, none});
    }

    void wait_at(int r) {
        each_point(r, [&](int v) {
            for (int e : at[v]) wait_for(e);
        });
    }

    void join_tree(int r, Pace pace, int by) {
        touched.push_back(r);
        set_pace(r, pace);
        rings[r].by = by;
        if (pace == grows) wait_at(r);
        if (pace == shrinks && !is_point(r)) queue.push({now + rings[r].weight, none, r});
    }

    // Grows trees until two of them meet, and turns the pairs between their roots.
    void grow() {
        now = 0;
        queue = {};
        for (size_t v = 0; v < paired.size(); v++)
            if (paired[v] == none) join_tree(top(v), grows, none);
        while (!happen()) {}
        for (int r : touched)
            if (!rings[r].gone && rings[r].up == none) set_pace(r, stands);
        for (Ring &r : rings) r.since = 0;
        touched.clear();
    }

    // Whether two trees met.
    bool happen() {
        if (queue.empty()) throw std::runtime_error("there is no pairing");
        const Happening next = queue.top();
        queue.pop();
        now = next.time;
        if (next.edge == none) {
            open(next.ring);
            return false;
        }
        return is_tight(next.edge) && happen_at(next.edge);
    }

    // Whether an edge still has something to happen now; else it is put off to its time.
    bool is_tight(int e) {
        const int one = top(edges[e].one), two = top(edges[e].two);
        if (one == two || rings[one].pace + rings[two].pace <= 0) return false;
        if (slack(e) == 0) return true;
        wait_for(e);
        return false;
    }

    bool happen_at(int e) {
        int one = top(edges[e].one), two = top(edges[e].two);
        if (rings[one].pace != grows) std::swap(one, two);
        if (rings[two].pace == stands) {
            join_tree(two, shrinks, e);
            const int pair = paired[base(two)];
            join_tree(top(edges[pair].across(base(two))), grows, pair);
            return false;
        }
        if (const int root = meeting(one, two); root != none) {
            bind(e, root);
            return false;
        }
        turn_up(e, edges[e].one);
        turn_up(e, edges[e].two);
        return true;
    }

    // The ring from which a tree came to this one.
    int before(int r) const {
        if (rings[r].by == none) return none;
        const Edge &e = edges[rings[r].by];
        return holds(r, e.one) ? top(e.two) : top(e.one);
    }

    std::vector<int> way_up(int r) const {
        std::vector<int> out;
        for (; r != none; r = before(r)) out.push_back(r);
        return out;
    }

    // The lowest ring above both, if they are of one tree.
    int meeting(int one, int two) const {
        const std::vector<int> a = way_up(one), b = way_up(two);
        int last = none;
        for (size_t i = 1; i <= std::min(a.size(), b.size()) && a[a.size() - i] == b[b.size() - i]; i++) last = a[a.size() - i];
        return last;
    }

    // Binds the ring of parts that an edge closes below a ring of its tree.
    void bind(int e, int root) {
        std::vector<int> parts{root}, links;
        std::vector<int> down = way_until(top(edges[e].one), root), on = way_until(top(edges[e].two), root);
        for (size_t i = down.size(); i-- > 0;) {
            parts.push_back(down[i]);
            links.push_back(rings[down[i]].by);
        }
        links.push_back(e);
        for (int r : on) {
            parts.push_back(r);
            links.push_back(rings[r].by);
        }
        make_ring(parts, links, rings[root].by);
    }

    std::vector<int> way_until(int r, int root) const {
        std::vector<int> out;
        for (; r != root; r = before(r)) out.push_back(r);
        return out;
    }

    void make_ring(const std::vector<int> &parts, const std::vector<int> &links, int by) {
        const int b = rings.size();
        Ring ring;
        ring.head = parts[0];
        ring.by = by;
        ring.pace = grows;
        ring.since = now;
        rings.push_back(ring);
        touched.push_back(b);
        std::vector<int> fresh;
        for (size_t i = 0; i < parts.size(); i++) {
            Ring &part = rings[parts[i]];
            if (part.pace == shrinks) fresh.push_back(parts[i]);
            set_pace(parts[i], stands);
            part.after = parts[(i + 1) % parts.size()];
            part.link = links[i];
        }
        for (int part : parts) rings[part].up = b;
        for (int part : fresh) wait_at(part);
    }

    // Pairs a point over an edge that has met another tree, and turns the pairs up to the root.
    void turn_up(int e, int v) {
        while (true) {
            const int r = top(v), old = rings[r].by;
            turn(r, v);
            paired[v] = e;
            if (old == none) return;
            const int inner = before(r), entry = rings[inner].by;
            const int inside = holds(inner, edges[entry].one) ? edges[entry].one : edges[entry].two;
            turn(inner, inside);
            paired[inside] = entry;
            e = entry;
            v = edges[entry].across(inside);
        }
    }

    // Pairs all points of a ring but v over its own edges.
    void turn(int r, int v) {
        if (is_point(r)) return;
        const int first = part_of(r, v);
        rings[r].head = first;
        turn(first, v);
        for (int part = rings[first].after; part != first; part = rings[rings[part].after].after) {
            const int link = rings[part].link, next = rings[part].after;
            const Edge &e = edges[link];
            const int mine = holds(part, e.one) ? e.one : e.two;
            turn(part, mine);
            turn(next, e.across(mine));
            paired[mine] = paired[e.across(mine)] = link;
        }
    }

    // A ring that has lost its weight falls into its parts; those on the even way from its entry to its head stay in the tree.
    void open(int r) {
        if (rings[r].gone || rings[r].up != none || rings[r].pace != shrinks) return;
        const int by = rings[r].by;
        const int inside = holds(r, edges[by].one) ? edges[by].one : edges[by].two;
        const int entry = part_of(r, inside);
        set_pace(r, stands);
        rings[r].gone = true;
        std::vector<int> parts;
        each_part(r, [&](int part) { parts.push_back(part); });
        for (int part : parts) {
            rings[part].up = none;
            rings[part].since = now;
        }
        stay(parts, std::find(parts.begin(), parts.end(), entry) - parts.begin(), by);
        for (int part : parts)
            if (rings[part].pace == stands) wait_at(part);
    }

    void stay(const std::vector<int> &parts, size_t i, int by) {
        const bool down = i % 2 == 0;
        std::vector<std::pair<int, int>> growing;
        join_tree(parts[i], shrinks, by);
        while (i != 0) {
            const size_t mid = down ? i - 1 : i + 1, end = down ? i - 2 : (i + 2) % parts.size();
            growing.push_back({parts[mid], rings[down ? parts[mid] : parts[i]].link});
            join_tree(parts[end], shrinks, rings[down ? parts[end] : parts[mid]].link);
            i = end;
        }
        for (auto [part, link] : growing) join_tree(part, grows, link);
    }
};

// The length of a shortest round of a town. A street's ends are paired with each other if it is driven once; if twice, each is paired with another end at its
// crossing, and at an odd crossing one end is paired with the crossing itself.
class StreetEnds {
  public:
    explicit StreetEnds(const Town &town) : town(town), ends(town.crossings) {}

    int64_t run() {
        int64_t all = 0;
        int points = 0;
        for (const Street &street : town.streets) {
            all += street.length;
            if (street.one == street.two) continue;
            ends[street.one].push_back({points, street.length});
            ends[street.two].push_back({points + 1, street.length});
            points += 2;
        }
        const int streets_end = points;
        std::vector<int> own(town.crossings, -1);
        for (int v = 0; v < town.crossings; v++)
            if (ends[v].size() % 2 == 1) own[v] = points++;
        return all + extra(points, streets_end, own);
    }

  private:
    struct End {
        int point;
        int64_t length;
    };
    const Town &town;
    std::vector<std::vector<End>> ends;

    int64_t extra(int points, int streets_end, const std::vector<int> &own) const {
        SparsePairing pairing(points);
        for (int p = 0; p < streets_end; p += 2) pairing.pair(pairing.add(p, p + 1, 0));
        for (int v = 0; v < town.crossings; v++) add_crossing(pairing, v, own[v]);
        return pairing.run() / 2;
    }

    // A pair of ends costs both their lengths, that is twice the halves.
    void add_crossing(SparsePairing &pairing, int v, int own) const {
        for (size_t i = 0; i < ends[v].size(); i++) {
            for (size_t j = 0; j < i; j++) pairing.add(ends[v][i].point, ends[v][j].point, ends[v][i].length + ends[v][j].length);
            if (own >= 0) pairing.add(ends[v][i].point, own, ends[v][i].length);
        }
    }
};
