// The classical method: all distances between the odd crossings by Dijkstra, and a least pairing of them by Edmonds' blossoms, O(n^3) for n odd crossings.
#pragma once
#include <algorithm>
#include <cstdint>
#include <functional>
#include <limits>
#include <queue>
#include <utility>
#include <vector>
#include "../planner/town.hpp"

// A least perfect pairing of an even number of points, by a table of costs. Each point, and each blossom (an odd number of points that are paired among
// themselves but for one, its base), has a price; that of a blossom is not negative. A pair costs at least the prices of what holds just one of its points.
class Pairing {
  public:
    explicit Pairing(const std::vector<int64_t> &costs, int points) : points(points), nodes(2 * points), cost(costs), price(points), mate(points, -1), top(points), near(points), best(4 * points * points) {
        for (int64_t &c : cost) c *= 4;  // so that halves of halves are whole
        for (int v = 0; v < points; v++) {
            nodes[v].base = v;
            nodes[v].points = {v};
            top[v] = v;
        }
        for (int b = 2 * points; b-- > points;) spare.push_back(b);
    }

    // What the pairs of a least pairing cost.
    int64_t run() {
        start();
        while (std::find(mate.begin(), mate.end(), -1) != mate.end()) grow_until_paired();
        int64_t sum = 0;
        for (int v = 0; v < points; v++)
            if (v < mate[v]) sum += at(v, mate[v]) / 4;
        return sum;
    }

  private:
    static constexpr int64_t far = std::numeric_limits<int64_t>::max() / 4;
    enum class Side { none, outer, inner };

    struct Link {
        int from = -1, to = -1;
        Link back() const { return {to, from}; }
    };

    struct Node {
        int base = -1, up = -1, nearest = -1, seen = 0;
        int64_t price = 0;
        Side side = Side::none;
        Link entry;               // of an inner node: the pair over which it was come to
        std::vector<int> points;  // all within
        std::vector<int> parts;   // of a blossom: round about, the one with the base first
        std::vector<Link> links;  // from each part to the one after it
    };

    enum class Event { grow, meet, open };
    struct Next {
        int64_t wait = far;
        Event event = Event::grow;
        int at = -1;
    };

    const int points;
    int stamp = 0;
    std::vector<Node> nodes;
    std::vector<int64_t> cost, price;  // price: of a point with all blossoms that hold it
    std::vector<int> mate, top, near, spare, tops, outer;
    std::vector<Link> best;  // the cheapest link between two outer nodes

    int64_t at(int u, int v) const { return cost[u * points + v]; }
    int64_t slack(int u, int v) const { return at(u, v) - price[u] - price[v]; }
    int64_t slack(const Link &l) const { return l.from < 0 ? far : slack(l.from, l.to); }
    Link &between(int a, int b) { return best[2 * points * a + b]; }

    // Half of the cheapest pair at each point, and pairs at once where they cost just that.
    void start() {
        for (int v = 0; v < points; v++) {
            int64_t least = far;
            for (int u = 0; u < points; u++)
                if (u != v) least = std::min(least, at(u, v));
            price[v] = least / 2;
        }
        for (int v = 0; v < points; v++)
            for (int u = 0; u < v && mate[v] < 0; u++)
                if (mate[u] < 0 && slack(u, v) == 0) {
                    mate[u] = v;
                    mate[v] = u;
                }
        for (int v = 0; v < points; v++) tops.push_back(v);
    }

    // Trees from all points that are not paired, until two of them meet.
    void grow_until_paired() {
        outer.clear();
        for (int t : tops) nodes[t].side = Side::none;
        std::fill(near.begin(), near.end(), -1);
        for (int t : tops)
            if (mate[nodes[t].base] < 0) make_outer(t);
        while (!step(next())) {}
    }

    Next next() {
        Next out;
        auto take = [&](int64_t wait, Event event, int at) {
            if (wait < out.wait) out = {wait, event, at};
        };
        for (int v = 0; v < points; v++)
            if (nodes[top[v]].side == Side::none && near[v] >= 0) take(slack(near[v], v), Event::grow, v);
        for (int t : outer)
            if (nodes[t].nearest >= 0) take(slack(between(t, nodes[t].nearest)) / 2, Event::meet, t);
        for (int t : tops)
            if (t >= points && nodes[t].side == Side::inner) take(nodes[t].price, Event::open, t);
        return out;
    }

    // Whether two trees met.
    bool step(const Next &next) {
        raise(next.wait);
        switch (next.event) {
            case Event::grow: grow(next.at); return false;
            case Event::meet: return meet(between(next.at, nodes[next.at].nearest));
            case Event::open: open(next.at); return false;
        }
        return false;
    }

    void raise(int64_t by) {
        if (by == 0) return;
        for (int v = 0; v < points; v++) {
            Side side = nodes[top[v]].side;
            price[v] += side == Side::outer ? by : side == Side::inner ? -by : 0;
        }
        for (int t : tops) {
            Side side = nodes[t].side;
            nodes[t].price += side == Side::outer ? by : side == Side::inner ? -by : 0;
        }
    }

    // An outer node takes a link to another if it is cheaper than the one it has.
    void offer(int a, int b, const Link &link) {
        if (slack(link) >= slack(between(a, b))) return;
        between(a, b) = link;
        between(b, a) = link.back();
        for (auto [one, other] : {std::make_pair(a, b), std::make_pair(b, a)})
            if (nodes[one].nearest < 0 || slack(link) < slack(between(one, nodes[one].nearest))) nodes[one].nearest = other;
    }

    // What a point of an outer node offers to all others.
    void scan(int u) {
        for (int x = 0; x < points; x++) {
            if (top[x] == top[u]) continue;
            if (nodes[top[x]].side == Side::outer)
                offer(top[u], top[x], {u, x});
            else if (near[x] < 0 || slack(u, x) < slack(near[x], x))
                near[x] = u;
        }
    }

    void make_outer(int t) {
        nodes[t].side = Side::outer;
        nodes[t].nearest = -1;
        for (int o : outer) between(t, o) = between(o, t) = {};
        outer.push_back(t);
        for (int u : nodes[t].points) scan(u);
    }

    void grow(int v) {
        int t = top[v];
        nodes[t].side = Side::inner;
        nodes[t].entry = {near[v], v};
        make_outer(top[mate[nodes[t].base]]);
    }

    // The outer node above an outer node, or none at a root.
    int above(int t) const {
        int m = mate[nodes[t].base];
        return m < 0 ? -1 : top[nodes[top[m]].entry.from];
    }

    // The lowest outer node that is above both, or none if they are of two trees.
    int common(int a, int b) {
        stamp++;
        while (a >= 0 || b >= 0) {
            if (a >= 0) {
                if (nodes[a].seen == stamp) return a;
                nodes[a].seen = stamp;
                a = above(a);
            }
            std::swap(a, b);
        }
        return -1;
    }

    bool meet(const Link link) {
        int root = common(top[link.from], top[link.to]);
        if (root >= 0) {
            shrink(link, root);
            return false;
        }
        pair_up(link);
        pair_up(link.back());
        return true;
    }

    // Pairs the point at which a link begins with the one at which it ends, and turns the pairs on the way to its root.
    void pair_up(Link link) {
        while (true) {
            int t = top[link.from], old = mate[nodes[t].base];
            expose(t, link.from);
            mate[link.from] = link.to;
            if (old < 0) return;
            int inner = top[old];
            Link entry = nodes[inner].entry;
            expose(inner, entry.to);
            mate[entry.to] = entry.from;
            link = entry;
        }
    }

    int part_with(int b, int v) const {
        while (nodes[v].up != b) v = nodes[v].up;
        return std::find(nodes[b].parts.begin(), nodes[b].parts.end(), v) - nodes[b].parts.begin();
    }

    // Pairs the points of a node among themselves but for v, which becomes its base.
    void expose(int b, int v) {
        if (b < points || nodes[b].base == v) return;
        Node &node = nodes[b];
        int first = part_with(b, v);
        std::rotate(node.parts.begin(), node.parts.begin() + first, node.parts.end());
        std::rotate(node.links.begin(), node.links.begin() + first, node.links.end());
        node.base = v;
        expose(node.parts[0], v);
        for (size_t i = 1; i < node.parts.size(); i += 2) {
            Link link = node.links[i];
            expose(node.parts[i], link.from);
            expose(node.parts[i + 1], link.to);
            mate[link.from] = link.to;
            mate[link.to] = link.from;
        }
    }

    struct Branch {
        std::vector<int> parts;
        std::vector<Link> links;
    };

    // The nodes from an outer one up to a root, which is left out, each with the link to the one above it.
    Branch climb(int t, int root) const {
        Branch out;
        while (t != root) {
            int b = nodes[t].base, inner = top[mate[b]];
            Link entry = nodes[inner].entry;
            out.parts.insert(out.parts.end(), {t, inner});
            out.links.insert(out.links.end(), {Link{b, mate[b]}, entry.back()});
            t = top[entry.from];
        }
        return out;
    }

    // The nodes round about over a link within one tree become a blossom.
    void shrink(const Link &link, int root) {
        Branch one = climb(top[link.from], root), two = climb(top[link.to], root);
        int b = spare.back();
        spare.pop_back();
        Node &node = nodes[b];
        node.base = nodes[root].base;
        node.price = 0;
        node.up = -1;
        node.parts = {root};
        node.parts.insert(node.parts.end(), one.parts.rbegin(), one.parts.rend());
        node.parts.insert(node.parts.end(), two.parts.begin(), two.parts.end());
        node.links.clear();
        for (size_t i = one.links.size(); i-- > 0;) node.links.push_back(one.links[i].back());
        node.links.push_back(link);
        node.links.insert(node.links.end(), two.links.begin(), two.links.end());
        take_in(b);
    }

    void take_in(int b) {
        Node &node = nodes[b];
        node.points.clear();
        for (int p : node.parts) {
            nodes[p].up = b;
            node.points.insert(node.points.end(), nodes[p].points.begin(), nodes[p].points.end());
        }
        for (int v : node.points) top[v] = b;
        drop_parts(tops, b);
        drop_parts(outer, b);
        node.side = Side::outer;
        node.nearest = -1;
        for (int o : outer) inherit(b, o);
        tops.push_back(b);
        outer.push_back(b);
        for (int p : node.parts)
            if (nodes[p].side == Side::inner)
                for (int u : nodes[p].points) scan(u);
    }

    void drop_parts(std::vector<int> &from, int b) {
        from.erase(std::remove_if(from.begin(), from.end(), [&](int t) { return nodes[t].up == b; }), from.end());
    }

    // A blossom has the cheapest of its outer parts' links.
    void inherit(int b, int o) {
        between(b, o) = between(o, b) = {};
        if (nodes[o].nearest >= 0 && nodes[nodes[o].nearest].up == b) {
            Link link = between(o, nodes[o].nearest);
            nodes[o].nearest = b;
            between(o, b) = link;
            between(b, o) = link.back();
        }
        for (int p : nodes[b].parts)
            if (nodes[p].side == Side::outer && slack(between(p, o)) < slack(between(b, o))) {
                between(b, o) = between(p, o);
                between(o, b) = between(p, o).back();
            }
        if (nodes[b].nearest < 0 || slack(between(b, o)) < slack(between(b, nodes[b].nearest))) nodes[b].nearest = o;
    }

    // An inner blossom of no price falls into its parts, and those between its entry and its base stay in the tree.
    void open(int b) {
        Node &node = nodes[b];
        tops.erase(std::find(tops.begin(), tops.end(), b));
        for (int p : node.parts) {
            nodes[p].up = -1;
            nodes[p].side = Side::none;
            for (int v : nodes[p].points) top[v] = p;
            tops.push_back(p);
        }
        const std::vector<int> parts = node.parts;
        const std::vector<Link> links = node.links;
        const Link entry = node.entry;
        spare.push_back(b);
        keep_way(parts, links, entry);
    }

    void keep_way(const std::vector<int> &parts, const std::vector<Link> &links, const Link &entry) {
        const int count = parts.size();
        int i = std::find(parts.begin(), parts.end(), top[entry.to]) - parts.begin();
        const bool down = i % 2 == 0;
        std::vector<int> outers;
        enter(parts[i], entry);
        while (i != 0) {
            int mid = down ? i - 1 : i + 1, end = down ? i - 2 : (i + 2) % count;
            outers.push_back(parts[mid]);
            enter(parts[end], down ? links[end].back() : links[mid]);
            i = end;
        }
        for (int t : outers) make_outer(t);
    }

    void enter(int t, const Link &entry) {
        nodes[t].side = Side::inner;
        nodes[t].entry = entry;
    }
};

// The length of a shortest round of a town by the classical method.
class Classical {
  public:
    explicit Classical(const Town &town) : town(town), next(town.crossings) {}

    int64_t run() {
        int64_t all = 0;
        std::vector<char> is_odd(town.crossings, 0);
        for (const Street &street : town.streets) {
            all += street.length;
            is_odd[street.one] ^= 1;
            is_odd[street.two] ^= 1;
            next[street.one].push_back({street.two, street.length});
            next[street.two].push_back({street.one, street.length});
        }
        for (int v = 0; v < town.crossings; v++)
            if (is_odd[v]) odd.push_back(v);
        return all + pairs();
    }

  private:
    struct Way {
        int to;
        int64_t length;
    };
    const Town &town;
    std::vector<std::vector<Way>> next;
    std::vector<int> odd;

    std::vector<int64_t> distances(int from) const {
        std::vector<int64_t> length(town.crossings, std::numeric_limits<int64_t>::max());
        using Reached = std::pair<int64_t, int>;
        std::priority_queue<Reached, std::vector<Reached>, std::greater<Reached>> left;
        length[from] = 0;
        left.push({0, from});
        while (!left.empty()) {
            auto [far, here] = left.top();
            left.pop();
            if (far > length[here]) continue;
            for (const Way &way : next[here])
                if (far + way.length < length[way.to]) {
                    length[way.to] = far + way.length;
                    left.push({length[way.to], way.to});
                }
        }
        return length;
    }

    int64_t pairs() const {
        const int count = odd.size();
        std::vector<int64_t> costs(count * count);
        for (int i = 0; i < count; i++) {
            const std::vector<int64_t> length = distances(odd[i]);
            for (int j = 0; j < count; j++) costs[i * count + j] = length[odd[j]];
        }
        return Pairing(costs, count).run();
    }
};
