// A straightforward incremental k-d tree in plain C++, to be measured beside ours. It is changed in place, holds no versions, and builds
// what got uneven anew where it stands. It admits the same coordinates, so its squared distances have 128 bits.
#pragma once
#include <corv/map.hpp>

#include <array>
#include <memory>
#include <tuple>

using At = std::array<std::int64_t, 3>;

struct Item {
    At at;
    std::uint16_t intensity;
    std::uint32_t number;
};

struct Node;
using Tree = std::unique_ptr<Node>;

struct Node {
    Item item;
    int axis;
    bool dropped = false;
    std::uint32_t size = 1, live = 1;
    At lo = item.at, hi = item.at;
    Tree left = nullptr, right = nullptr;

    void pull_up() {
        size = 1, live = !dropped, lo = hi = item.at;
        for (auto son : {left.get(), right.get()}) {
            if (!son) continue;
            size += son->size, live += son->live;
            for (int i = 0; i < 3; i++) lo[i] = std::min(lo[i], son->lo[i]), hi[i] = std::max(hi[i], son->hi[i]);
        }
    }

    bool is_uneven() const {
        auto larger = std::max(left ? left->size : 0, right ? right->size : 0);
        return size >= 10 && (larger * 10ull > (size - 1) * 7ull || live * 2ull < size);
    }
};

using Items = std::vector<Item>;

inline Tree build(Items::iterator first, Items::iterator last) {
    if (first == last) return nullptr;
    At lo = first->at, hi = first->at;
    for (auto item = first; item != last; ++item)
        for (int i = 0; i < 3; i++) lo[i] = std::min(lo[i], item->at[i]), hi[i] = std::max(hi[i], item->at[i]);
    int axis = 0;
    for (int i = 1; i < 3; i++)
        if (hi[i] - lo[i] > hi[axis] - lo[axis]) axis = i;
    auto middle = first + (last - first) / 2;
    std::nth_element(first, middle, last, [axis](auto &a, auto &b) { return a.at[axis] < b.at[axis]; });
    Tree tree(new Node{*middle, axis});
    tree->left = build(first, middle), tree->right = build(middle + 1, last);
    tree->pull_up();
    return tree;
}

inline void flatten(const Tree &tree, Items &items) {
    if (!tree || !tree->live) return;
    flatten(tree->left, items);
    if (!tree->dropped) items.push_back(tree->item);
    flatten(tree->right, items);
}

// After a change below.
inline void settle(Tree &tree) {
    tree->pull_up();
    if (!tree->is_uneven()) return;
    Items items;
    items.reserve(tree->live);
    flatten(tree, items);
    tree = build(items.begin(), items.end());
}

inline void put(Tree &tree, const Item &item, int axis) {
    if (!tree) {
        tree.reset(new Node{item, axis});
        return;
    }
    put(item.at[tree->axis] < tree->item.at[tree->axis] ? tree->left : tree->right, item, (tree->axis + 1) % 3);
    settle(tree);
}

// Half-open, as a voxel is.
struct Cube {
    At lo, hi;

    bool meets(const At &low, const At &high) const {
        for (int i = 0; i < 3; i++)
            if (high[i] < lo[i] || low[i] >= hi[i]) return false;
        return true;
    }
};

inline void find(const Tree &tree, const Cube &cube, Items &found) {
    if (!tree || !tree->live || !cube.meets(tree->lo, tree->hi)) return;
    find(tree->left, cube, found);
    if (!tree->dropped && cube.meets(tree->item.at, tree->item.at)) found.push_back(tree->item);
    find(tree->right, cube, found);
}

inline void drop(Tree &tree, const Cube &cube) {
    if (!tree || !tree->live || !cube.meets(tree->lo, tree->hi)) return;
    drop(tree->left, cube);
    drop(tree->right, cube);
    tree->dropped = tree->dropped || cube.meets(tree->item.at, tree->item.at);
    settle(tree);
}

inline corv::Wide square(std::int64_t gap) { return corv::Wide(gap < 0 ? -gap : gap) * corv::Wide(gap < 0 ? -gap : gap); }

struct Found {
    corv::Wide dist2;
    Item item;
    auto key() const { return std::tie(dist2, item.at, item.number); }
    bool operator<(const Found &other) const { return key() < other.key(); }
};

struct Search {
    At place;
    std::size_t k;
    corv::Wide bound;
    std::vector<Found> found;

    corv::Wide least(const Node &node) const {
        corv::Wide sum = 0;
        for (int i = 0; i < 3; i++) sum += square(std::max({node.lo[i] - place[i], place[i] - node.hi[i], std::int64_t{0}}));
        return sum;
    }

    void offer(const Item &item) {
        Found one{square(item.at[0] - place[0]) + square(item.at[1] - place[1]) + square(item.at[2] - place[2]), item};
        if (one.dist2 > bound || (found.size() == k && !(one < found.back()))) return;
        if (found.size() == k) found.pop_back();
        found.insert(std::upper_bound(found.begin(), found.end(), one), one);
        if (found.size() == k) bound = found.back().dist2;
    }

    void visit(const Tree &tree) {
        if (!tree || !tree->live || least(*tree) > bound) return;
        bool first = place[tree->axis] < tree->item.at[tree->axis];
        visit(first ? tree->left : tree->right);
        if (!tree->dropped) offer(tree->item);
        visit(first ? tree->right : tree->left);
    }
};
