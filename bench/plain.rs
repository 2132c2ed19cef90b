// A straightforward incremental k-d tree in plain Rust, to be measured beside map_bench: the same words, points, works and
// checksums. Build with `rustc -O`. It admits the same coordinates, so its squared distances have 128 bits, and keeps an
// intensity with each point. It is changed in place and holds no versions, so `held` is here the work of `scans`, and it
// rebuilds everything in place, so `longest` has one figure here.
//
// Built with `--cfg shared`, its nodes are shared by versions as ours are, and the version before each scan is held while the scan is
// taken in, in `held`, `thin` and `odometry`: what a version costs in plain Rust.
use std::collections::HashMap;
use std::env;
use std::time::{Duration, Instant};
mod batches;
mod crowds;
mod drive;
mod pointers;
mod readers;
mod steady;
use pointers::{Pointer, held, owned, taken};

const KEEP: [u8; 2] = [0, 1];
const DELETE: [u8; 2] = [2, 2];
const THIN: [u8; 2] = [2, 1];
const LIVE: u8 = 0;
const DROPPED: u8 = 2;

fn apply(tag: [u8; 2], label: u8) -> u8 {
    if label == DROPPED { DROPPED } else { tag[label as usize] }
}

fn then(first: [u8; 2], second: [u8; 2]) -> [u8; 2] {
    [apply(second, first[0]), apply(second, first[1])]
}

#[derive(Clone, Copy)]
struct Item {
    number: u32,
    point: [i64; 3],
    intensity: u16,
    label: u8,
}

#[cfg_attr(shared, derive(Clone))]
struct Node {
    item: Item,
    axis: usize,
    pending: [u8; 2],
    lo: [i64; 3],
    hi: [i64; 3],
    size: u32,
    counts: [u32; 3],
    left: Tree,
    right: Tree,
}

type Tree = Option<Pointer<Node>>;

fn counts_after(counts: [u32; 3], tag: [u8; 2]) -> [u32; 3] {
    let mut after = [0, 0, counts[2]];
    after[tag[0] as usize] += counts[0];
    after[tag[1] as usize] += counts[1];
    after
}

impl Node {
    fn pull_up(&mut self) {
        let mut counts = [0; 3];
        let mut size = 1;
        self.lo = self.item.point;
        self.hi = self.item.point;
        for son in [&self.left, &self.right].into_iter().flatten() {
            size += son.size;
            for i in 0..3 {
                counts[i] += son.counts[i];
                self.lo[i] = self.lo[i].min(son.lo[i]);
                self.hi[i] = self.hi[i].max(son.hi[i]);
            }
        }
        let mut counts = counts_after(counts, self.pending);
        counts[self.item.label as usize] += 1;
        self.counts = counts;
        self.size = size;
    }

    fn tag(&mut self, tag: [u8; 2]) {
        self.item.label = apply(tag, self.item.label);
        self.pending = then(self.pending, tag);
        self.counts = counts_after(self.counts, tag);
    }

    fn push_down(&mut self) {
        let pending = std::mem::replace(&mut self.pending, KEEP);
        if pending != KEEP {
            for son in [&mut self.left, &mut self.right].into_iter().flatten() {
                owned(son).tag(pending);
            }
        }
    }

    // Whether the node is to be rebuilt once so many more stand on its left and on its right.
    fn is_due(&self, large: u32, left: u32, right: u32) -> bool {
        let size = |tree: &Tree| tree.as_ref().map_or(0, |son| son.size);
        let (left, right) = (size(&self.left) + left, size(&self.right) + right);
        let share = 3 * (left + right);
        let all = left + right + 1;
        (10..large).contains(&all) && (5 * left >= share || 5 * right >= share || 2 * self.counts[2] >= all)
    }
}

fn flatten(tree: Tree, owed: [u8; 2], items: &mut Vec<Item>) {
    if let Some(node) = tree {
        let node = taken(node);
        let label = apply(owed, node.item.label);
        if label != DROPPED {
            items.push(Item { label, ..node.item });
        }
        let owed = then(node.pending, owed);
        flatten(node.left, owed, items);
        flatten(node.right, owed, items);
    }
}

fn build(items: &mut [Item]) -> Tree {
    if items.is_empty() {
        return None;
    }
    let mut lo = items[0].point;
    let mut hi = lo;
    for item in items.iter() {
        for i in 0..3 {
            lo[i] = lo[i].min(item.point[i]);
            hi[i] = hi[i].max(item.point[i]);
        }
    }
    let width = |i: usize| hi[i] - lo[i];
    let axis = if width(0) >= width(1) && width(0) >= width(2) {
        0
    } else if width(1) >= width(2) {
        1
    } else {
        2
    };
    let middle = (items.len() - 1) / 2;
    let (front, item, back) = items.select_nth_unstable_by_key(middle, |i| (i.point[axis], i.point, i.number));
    let item = *item;
    let mut node = Node {
        item,
        axis,
        pending: KEEP,
        lo,
        hi,
        size: 0,
        counts: [0; 3],
        left: build(front),
        right: build(back),
    };
    node.pull_up();
    Some(Pointer::new(node))
}

fn refreshed(tree: Tree, large: u32) -> Tree {
    match tree {
        Some(node) if node.is_due(large, 0, 0) => {
            let mut items = Vec::with_capacity(node.size as usize);
            flatten(Some(node), KEEP, &mut items);
            build(&mut items)
        }
        tree => tree,
    }
}

fn put(tree: Tree, large: u32, item: Item, axis: usize) -> Tree {
    let Some(mut node) = tree else {
        let mut node = Node {
            item,
            axis,
            pending: KEEP,
            lo: item.point,
            hi: item.point,
            size: 0,
            counts: [0; 3],
            left: None,
            right: None,
        };
        node.pull_up();
        return Some(Pointer::new(node));
    };
    let own = owned(&mut node);
    own.push_down();
    let next = (own.axis + 1) % 3;
    if item.point[own.axis] < own.item.point[own.axis] {
        own.left = put(own.left.take(), large, item, next);
    } else {
        own.right = put(own.right.take(), large, item, next);
    }
    own.pull_up();
    refreshed(Some(node), large)
}

// Brings the items to the front that belong on the node's left. How many they are.
fn parted(node: &Node, items: &mut [Item]) -> usize {
    let at = node.item.point[node.axis];
    let mut count = 0;
    for i in 0..items.len() {
        if items[i].point[node.axis] < at {
            items.swap(count, i);
            count += 1;
        }
    }
    count
}

// Puts the items in one pass: they are parted at each node that they meet, and what would breach is rebuilt with them.
fn put_all(tree: Tree, large: u32, items: &mut [Item], axis: usize) -> Tree {
    if let [] | [_] = items {
        return items.iter().fold(tree, |tree, item| put(tree, large, *item, axis));
    }
    let Some(mut node) = tree else { return build(items) };
    let count = parted(&node, items);
    let (left, right) = items.split_at_mut(count);
    if node.is_due(large, left.len() as u32, right.len() as u32) {
        let mut all = Vec::with_capacity(node.size as usize + items.len());
        flatten(Some(node), KEEP, &mut all);
        all.extend_from_slice(items);
        return build(&mut all);
    }
    let own = owned(&mut node);
    own.push_down();
    let next = (own.axis + 1) % 3;
    own.left = put_all(own.left.take(), large, left, next);
    own.right = put_all(own.right.take(), large, right, next);
    own.pull_up();
    refreshed(Some(node), large)
}

type Cuboid = [[i64; 3]; 2];

fn holds(c: &Cuboid, p: &[i64; 3]) -> bool {
    (0..3).all(|i| c[0][i] <= p[i] && p[i] < c[1][i])
}

fn mark(tree: Tree, large: u32, c: &Cuboid, tag: [u8; 2]) -> Tree {
    let mut node = tree?;
    if !(0..3).all(|i| c[0][i] <= node.hi[i] && node.lo[i] < c[1][i]) {
        return Some(node);
    }
    let own = owned(&mut node);
    if holds(c, &own.lo) && holds(c, &own.hi) {
        own.tag(tag);
        return Some(node);
    }
    own.push_down();
    if holds(c, &own.item.point) {
        own.item.label = apply(tag, own.item.label);
    }
    own.left = mark(own.left.take(), large, c, tag);
    own.right = mark(own.right.take(), large, c, tag);
    own.pull_up();
    refreshed(Some(node), large)
}

#[derive(Clone, Copy)]
struct Hit {
    dist2: u128,
    point: [i64; 3],
    number: u32,
    // Found with the point; no checksum has it.
    #[allow(dead_code)]
    intensity: u16,
}

fn live(node: &Node, owed: [u8; 2]) -> u32 {
    counts_after(node.counts, owed)[LIVE as usize]
}

fn live_of(tree: &Tree) -> u32 {
    tree.as_ref().map_or(0, |node| live(node, KEEP))
}

fn gap2(a: i64, b: i64) -> u128 {
    (a.abs_diff(b) as u128).pow(2)
}

fn dist2(a: &[i64; 3], b: &[i64; 3]) -> u128 {
    (0..3).map(|i| gap2(a[i], b[i])).sum()
}

fn reach(node: &Node, q: &[i64; 3]) -> u128 {
    (0..3).map(|i| gap2(q[i], q[i].clamp(node.lo[i], node.hi[i]))).sum()
}

fn near(tree: &Tree, owed: [u8; 2], k: usize, q: &[i64; 3], hits: &mut Vec<Hit>) {
    let Some(node) = tree else { return };
    if live(node, owed) == 0 || (hits.len() == k && reach(node, q) > hits[k - 1].dist2) {
        return;
    }
    if apply(owed, node.item.label) == LIVE {
        let Item { number, point, intensity, .. } = node.item;
        let hit = Hit { dist2: dist2(q, &point), point, number, intensity };
        let key = (hit.dist2, hit.point, hit.number);
        let at = hits.iter().take_while(|h| (h.dist2, h.point, h.number) < key).count();
        if at < k {
            hits.truncate(k - 1);
            hits.insert(at, hit);
        }
    }
    let below = then(node.pending, owed);
    let (first, second) = if q[node.axis] < node.item.point[node.axis] {
        (&node.left, &node.right)
    } else {
        (&node.right, &node.left)
    };
    near(first, below, k, q, hits);
    near(second, below, k, q, hits);
}

const VOXEL: i64 = 500;

fn voxel(p: &[i64; 3]) -> Cuboid {
    let lo = p.map(|c| VOXEL * c.div_euclid(VOXEL));
    [lo, lo.map(|c| c + VOXEL)]
}

type Rank = (u128, [i64; 3], u32, u16);

// The order in which the points of a voxel win. No two have the same number, so the intensity after it decides nothing.
fn rank(c: &Cuboid, item: &Item) -> Rank {
    let away = (0..3).map(|i| gap2(2 * item.point[i], c[0][i] + c[1][i])).sum();
    (away, item.point, item.number, item.intensity)
}

// The first live item of the cuboid in that order, and how many there are.
fn best(tree: &Tree, owed: [u8; 2], c: &Cuboid, found: &mut (Option<Rank>, u32)) {
    let Some(node) = tree else { return };
    if live(node, owed) == 0 || !(0..3).all(|i| c[0][i] <= node.hi[i] && node.lo[i] < c[1][i]) {
        return;
    }
    if apply(owed, node.item.label) == LIVE && holds(c, &node.item.point) {
        let new = rank(c, &node.item);
        found.0 = Some(found.0.map_or(new, |old| old.min(new)));
        found.1 += 1;
    }
    let below = then(node.pending, owed);
    best(&node.left, below, c, found);
    best(&node.right, below, c, found);
}

struct Draws(u64);

impl Draws {
    fn draw(&mut self) -> i64 {
        self.0 = (self.0 * 1664525 + 1013904223) % (1 << 32);
        (self.0 / 65536) as i64
    }

    fn point(&mut self, scan: u32) -> [i64; 3] {
        let (a, b, c) = (self.draw(), self.draw(), self.draw());
        [1000 * scan as i64 + a % 60001 - 30000, b % 60001 - 30000, c % 6001 - 3000]
    }

    fn points(&mut self, count: u32) -> Vec<[i64; 3]> {
        (0..count).map(|number| self.point(number / POINTS_OF_SCAN)).collect()
    }

    // In turn from all over what scans of so many points saw.
    fn places(&mut self, count: u32, points: u32) -> Vec<[i64; 3]> {
        let scans = (points / POINTS_OF_SCAN).max(1);
        (0..count).map(|place| self.point(place % scans)).collect()
    }
}

const POINTS_OF_SCAN: u32 = 2_000;

// As in map_bench: the update itself rebuilds whatever lost its balance.
const LARGE: u32 = 1_000_000;

fn with(sum: u64, number: u32, dist2: u128) -> u64 {
    sum.wrapping_mul(31).wrapping_add(number as u64).wrapping_add(dist2 as u64)
}

fn numbered(first: u32, points: &[[i64; 3]]) -> Vec<Item> {
    (first..).zip(points).map(|(number, &point)| Item { number, point, intensity: 0, label: LIVE }).collect()
}

struct Map {
    tree: Tree,
    next: u32,
    sum: u64,
}

impl Map {
    fn ask(&mut self, places: &[[i64; 3]]) {
        let mut hits = Vec::with_capacity(5);
        for q in places {
            hits.clear();
            near(&self.tree, KEEP, 5, q, &mut hits);
            for hit in &hits {
                self.sum = with(self.sum, hit.number, hit.dist2);
            }
        }
    }

    fn count(&mut self, lists: &[Vec<Hit>]) {
        for hit in lists.iter().flatten() {
            self.sum = with(self.sum, hit.number, hit.dist2);
        }
    }

    fn delete(&mut self, cuboid: &Cuboid) {
        self.tree = mark(self.tree.take(), LARGE, cuboid, DELETE);
    }

    // What lies from 30 to 60 metres behind the robot is deleted.
    fn leave(&mut self, scan: u32) {
        let x = 1000 * scan as i64;
        self.delete(&[[x - 60000, -30000, -3000], [x - 30000, 30001, 3001]]);
    }

    fn add(&mut self, points: &[[i64; 3]]) {
        let mut items = numbered(self.next, points);
        self.next += points.len() as u32;
        self.tree = put_all(self.tree.take(), LARGE, &mut items, 0);
    }

    // Of the points that meet in a voxel, and of what is live there, the one nearest to the centre stays. One search a voxel,
    // and what is new goes in in one pass.
    fn thin(&mut self, points: &[[i64; 3]]) {
        let _before = held(&self.tree);
        let mut firsts: HashMap<Cuboid, Rank> = HashMap::new();
        for item in numbered(self.next, points) {
            let cube = voxel(&item.point);
            let new = rank(&cube, &item);
            firsts.entry(cube).and_modify(|old| *old = new.min(*old)).or_insert(new);
        }
        self.next += points.len() as u32;
        let mut items = Vec::new();
        for (cube, new) in firsts {
            let mut found = (None, 0);
            best(&self.tree, KEEP, &cube, &mut found);
            let (_, point, number, intensity) = found.0.map_or(new, |old| old.min(new));
            if found.1 == 1 && number != new.2 {
                continue;
            }
            if found.1 > 0 {
                self.tree = mark(self.tree.take(), LARGE, &cube, THIN);
            }
            items.push(Item { number, point, intensity, label: LIVE });
        }
        self.tree = put_all(self.tree.take(), LARGE, &mut items, 0);
    }

    // Takes each scan's points in. After each tenth scan what the robot leaves is deleted.
    fn grow(&mut self, points: &[[i64; 3]], take_in: impl Fn(&mut Map, &[[i64; 3]])) {
        for (scan, points) in points.chunks(POINTS_OF_SCAN as usize).enumerate() {
            take_in(self, points);
            if scan % 10 == 9 {
                self.leave(scan as u32);
            }
        }
    }

    // The checksum of all that is held, by number.
    fn finish(mut self) -> u64 {
        let mut items = Vec::new();
        flatten(self.tree.take(), KEEP, &mut items);
        items.sort_unstable_by_key(|item| item.number);
        items.iter().fold(self.sum, |sum, item| with(sum, item.number, dist2(&[0; 3], &item.point)))
    }
}

// A map grows by scans to so many points, and then by so many more. The longest addition of one of those.
fn longest(count: u32, more: u32) -> Duration {
    let points = Draws(1).points(count + more);
    let mut map = Map { tree: None, next: 0, sum: 0 };
    let mut longest = Duration::ZERO;
    for (scan, points) in points.chunks(POINTS_OF_SCAN as usize).enumerate() {
        let begun = Instant::now();
        map.add(points);
        if scan >= (count / POINTS_OF_SCAN) as usize {
            longest = longest.max(begun.elapsed());
        }
    }
    longest
}

fn main() {
    let words: Vec<String> = env::args().skip(1).collect();
    let count: u32 = words[1].parse().unwrap();
    let asked: u32 = words[2].parse().unwrap();
    if words[0] == "longest" {
        return println!("together {}", longest(count, asked).as_micros());
    }
    match words[0].as_str() {
        "readers" => return readers::run(&words[0], count, asked, Duration::ZERO),
        "steady" | "inline" => return steady::run(&words[0], count, asked),
        "paced" => return readers::run(&words[0], count, asked, Duration::from_millis(50)),
        _ => (),
    }
    let mut draws = Draws(1);
    let points = draws.points(count);
    let places = if matches!(words[0].as_str(), "clusters" | "cells" | "lonely") { Vec::new() } else { draws.places(asked, count) };
    let cubes: Vec<Cuboid> = places.iter().map(|lo| [*lo, lo.map(|c| c + 1000)]).collect();
    let mut items = numbered(0, &points);
    let kept = items.clone();
    let mut map = Map { tree: None, next: 0, sum: 0 };
    match words[0].as_str() {
        "ask" | "box" | "singly" | "nears" | "clusters" | "lonely" => map.tree = build(&mut items),
        "after" => map.grow(&points, Map::add),
        _ => (),
    }
    let mut lists = Vec::new();
    let begun = Instant::now();
    match words[0].as_str() {
        "build" => map.tree = build(&mut items),
        "ask" | "after" => map.ask(&places),
        "scans" => map.grow(&points, Map::add),
        "held" => map.grow(&points, |map, points| {
            let _before = held(&map.tree);
            map.sum = with(map.sum, live_of(&map.tree), 0);
            map.add(points);
        }),
        "turn" => map.grow(&points, |map, points| {
            map.ask(points);
            map.add(points);
        }),
        "thin" => map.grow(&points, Map::thin),
        "odometry" => map.grow(&points, |map, points| {
            map.ask(points);
            map.thin(points);
        }),
        "singly" => lists = batches::singly(&map.tree, &places),
        "nears" => lists = batches::at_once(&map.tree, &places),
        "batches" => map.grow(&points, |map, points| {
            map.count(&batches::at_once(&map.tree, points));
            map.thin(points);
        }),
        "clusters" | "cells" | "lonely" => {
            let sum = match words[0].as_str() {
                "clusters" => crowds::clusters(&map.tree, &kept, asked),
                "cells" => crowds::by_cells(&kept, asked),
                _ => crowds::lonely(&map.tree, &kept, asked),
            };
            eprintln!("{}", begun.elapsed().as_micros());
            return println!("{} {count} {asked} sum {sum}", words[0]);
        }
        "box" => cubes.iter().for_each(|cube| map.delete(cube)),
        "drive" => return println!("{}", drive::summary(count)),
        _ => panic!("no such work"),
    }
    eprintln!("{}", begun.elapsed().as_micros());
    map.count(&lists);
    println!("{} {} {} sum {}", words[0], count, asked, map.finish());
}
