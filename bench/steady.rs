// How steady the plain tree is behind a lock that readers share: scans come every ten milliseconds, beside a reader that asks
// without a pause, as in map_bench. Uneven subtrees are rebuilt either in the updates, or the larger ones by a thread beside
// them. That thread lists a subtree under the lock and builds it outside. Meanwhile what is done to the subtree is written down.
// The thread does it to what it built, and puts that in the subtree's place under the lock.
use super::{Cuboid, DELETE, Draws, Item, KEEP, Map, POINTS_OF_SCAN, Tree};
use super::{apply, build, mark, near, numbered, parted, put_all, then};
use crate::pointers::owned;
use std::fmt;
use std::mem;
use std::sync::RwLock;
use std::sync::atomic::{AtomicBool, Ordering};
use std::thread;
use std::time::{Duration, Instant};

type Point = [i64; 3];

// So many scans are looked at.
const SCANS: u32 = 300;

// A scanner leaves so long for a scan.
const TURN: Duration = Duration::from_millis(10);

// How long steps took.
#[derive(Default)]
struct Times(Vec<Duration>);

impl Times {
    fn push(&mut self, took: Duration) {
        self.0.push(took);
    }

    fn sort(&mut self) {
        self.0.sort_unstable();
    }
}

// How many they were, and microseconds of the median, the 99th percentile, the 99.9th and the longest, of sorted times.
impl fmt::Display for Times {
    fn fmt(&self, f: &mut fmt::Formatter<'_>) -> fmt::Result {
        let count = self.0.len();
        write!(f, "{count}")?;
        for place in [count / 2, count * 99 / 100, count * 999 / 1000, count.saturating_sub(1)] {
            let nanos = self.0.get(place).map_or(0, Duration::as_nanos);
            write!(f, " {}.{}", nanos / 1000, nanos % 1000 / 100)?;
        }
        Ok(())
    }
}

// What was done to a subtree since it was listed.
enum Op {
    Put(Vec<Item>),
    Mark(Cuboid, [u8; 2]),
}

// A subtree that is being rebuilt: which son to take at each node on the way to it, and what was done to it since.
struct Detached {
    rights: Vec<bool>,
    log: Vec<Op>,
}

// What is behind the lock.
struct Kept {
    map: Map,
    // The updates rebuild subtrees of fewer nodes.
    large: u32,
    detached: Option<Detached>,
}

impl Kept {
    fn add(&mut self, points: &[Point]) {
        let mut items = numbered(self.map.next, points);
        self.map.next += points.len() as u32;
        let tree = self.map.tree.take();
        self.map.tree = match &mut self.detached {
            None => put_all(tree, self.large, &mut items, 0),
            Some(part) => put_beside(tree, self.large, &part.rights, &mut items, 0, &mut part.log),
        };
    }

    // What lies from 30 to 60 metres behind the robot is deleted.
    fn leave(&mut self, scan: u32) {
        let x = 1000 * scan as i64;
        let left = [[x - 60000, -30000, -3000], [x - 30000, 30001, 3001]];
        let tree = self.map.tree.take();
        self.map.tree = match &mut self.detached {
            None => mark(tree, self.large, &left, DELETE),
            Some(part) => mark_beside(tree, self.large, &part.rights, &left, DELETE, &mut part.log),
        };
    }

    // Lists the first large subtree that is uneven, from the top on.
    fn detach(&mut self) -> Option<Vec<Item>> {
        let mut rights = Vec::new();
        if !find_uneven(&self.map.tree, self.large, &mut rights) {
            return None;
        }
        let mut items = Vec::new();
        list(place(&mut self.map.tree, &rights), KEEP, &mut items);
        self.detached = Some(Detached { rights, log: Vec::new() });
        Some(items)
    }

    // Where nothing was done to the detached subtree since this was asked last, puts the tree in its place and hands it out. Else
    // gives the tree back, and what was done.
    fn swap_or_log(&mut self, built: Tree) -> (Tree, Vec<Op>) {
        let Some(mut part) = self.detached.take() else { return (built, Vec::new()) };
        if !part.log.is_empty() {
            let ops = mem::take(&mut part.log);
            self.detached = Some(part);
            return (built, ops);
        }
        let old = mem::replace(place(&mut self.map.tree, &part.rights), built);
        pull_up_along(&mut self.map.tree, &part.rights);
        (old, Vec::new())
    }
}

// Puts the items in one pass. No node above the detached subtree is rebuilt, and what comes into the subtree is written down.
fn put_beside(tree: Tree, large: u32, rights: &[bool], items: &mut [Item], axis: usize, log: &mut Vec<Op>) -> Tree {
    if items.is_empty() {
        return tree;
    }
    let (Some((&is_right, rights)), true) = (rights.split_first(), tree.is_some()) else {
        log.push(Op::Put(items.to_vec()));
        return put_all(tree, large, items, axis);
    };
    let mut node = tree?;
    let count = parted(&node, items);
    let (left, right) = items.split_at_mut(count);
    let own = owned(&mut node);
    own.push_down();
    let next = (own.axis + 1) % 3;
    if is_right {
        own.left = put_all(own.left.take(), large, left, next);
        own.right = put_beside(own.right.take(), large, rights, right, next, log);
    } else {
        own.left = put_beside(own.left.take(), large, rights, left, next, log);
        own.right = put_all(own.right.take(), large, right, next);
    }
    own.pull_up();
    Some(node)
}

// Labels what is in the box, with the same care.
fn mark_beside(tree: Tree, large: u32, rights: &[bool], c: &Cuboid, tag: [u8; 2], log: &mut Vec<Op>) -> Tree {
    let mut node = tree?;
    if !(0..3).all(|i| c[0][i] <= node.hi[i] && node.lo[i] < c[1][i]) {
        return Some(node);
    }
    let is_covered = super::holds(c, &node.lo) && super::holds(c, &node.hi);
    let (Some((&is_right, rights)), false) = (rights.split_first(), is_covered) else {
        log.push(Op::Mark(*c, tag));
        return mark(Some(node), large, c, tag);
    };
    let own = owned(&mut node);
    own.push_down();
    if super::holds(c, &own.item.point) {
        own.item.label = apply(tag, own.item.label);
    }
    if is_right {
        own.left = mark(own.left.take(), large, c, tag);
        own.right = mark_beside(own.right.take(), large, rights, c, tag, log);
    } else {
        own.left = mark_beside(own.left.take(), large, rights, c, tag, log);
        own.right = mark(own.right.take(), large, c, tag);
    }
    own.pull_up();
    Some(node)
}

// The way to the first uneven subtree of at least so many nodes.
fn find_uneven(tree: &Tree, large: u32, rights: &mut Vec<bool>) -> bool {
    let Some(node) = tree else { return false };
    if node.size < large {
        return false;
    }
    if node.is_due(u32::MAX, 0, 0) {
        return true;
    }
    for (is_right, son) in [(false, &node.left), (true, &node.right)] {
        rights.push(is_right);
        if find_uneven(son, large, rights) {
            return true;
        }
        rights.pop();
    }
    false
}

// Where the subtree stands that this way leads to. Nothing above it owes it an action then.
fn place<'a>(tree: &'a mut Tree, rights: &[bool]) -> &'a mut Tree {
    let Some((&is_right, rights)) = rights.split_first() else { return tree };
    let own = owned(tree.as_mut().unwrap());
    own.push_down();
    place(if is_right { &mut own.right } else { &mut own.left }, rights)
}

fn pull_up_along(tree: &mut Tree, rights: &[bool]) {
    let Some((&is_right, rights)) = rights.split_first() else { return };
    let own = owned(tree.as_mut().unwrap());
    pull_up_along(if is_right { &mut own.right } else { &mut own.left }, rights);
    own.pull_up();
}

// The items of a subtree that stays.
fn list(tree: &Tree, owed: [u8; 2], items: &mut Vec<Item>) {
    let Some(node) = tree else { return };
    let label = apply(owed, node.item.label);
    if label != super::DROPPED {
        items.push(Item { label, ..node.item });
    }
    let below = then(node.pending, owed);
    list(&node.left, below, items);
    list(&node.right, below, items);
}

fn replayed(tree: Tree, large: u32, ops: Vec<Op>) -> Tree {
    ops.into_iter().fold(tree, |tree, op| match op {
        Op::Put(mut items) => put_all(tree, large, &mut items, 0),
        Op::Mark(c, tag) => mark(tree, large, &c, tag),
    })
}

// What all threads look at.
struct Shared {
    lock: RwLock<Kept>,
    // While the scans are added that are looked at.
    is_on: AtomicBool,
    // No further update comes.
    is_over: AtomicBool,
}

impl Shared {
    fn is_on(&self) -> bool {
        self.is_on.load(Ordering::SeqCst)
    }

    // A step under the lock, and how long it took with its waiting.
    fn turn<T>(&self, step: impl FnOnce(&mut Kept) -> T) -> (T, Duration) {
        let begun = Instant::now();
        let mut kept = self.lock.write().unwrap();
        let done = step(&mut kept);
        drop(kept);
        (done, begun.elapsed())
    }
}

// What the thread asked for that rebuilds subtrees.
#[derive(Default)]
struct Turns {
    detach: Times,
    swap: Times,
    log: Times,
}

// Rebuilds uneven subtrees until no further update comes. It sleeps where there is none.
fn rebuild(shared: &Shared, large: u32) -> Turns {
    let mut turns = Turns::default();
    while !shared.is_over.load(Ordering::SeqCst) {
        let (items, took) = shared.turn(Kept::detach);
        if shared.is_on() {
            turns.detach.push(took);
        }
        match items {
            None => thread::park(),
            Some(mut items) => swap_in(shared, large, build(&mut items), &mut turns),
        }
    }
    turns
}

// Brings what was built up to date outside the lock, as often as it takes. What it takes the place of is freed outside too.
fn swap_in(shared: &Shared, large: u32, built: Tree, turns: &mut Turns) {
    let mut built = built;
    loop {
        let ((tree, ops), took) = shared.turn(|kept| kept.swap_or_log(built));
        let times = if ops.is_empty() { &mut turns.swap } else { &mut turns.log };
        if shared.is_on() {
            times.push(took);
        }
        if ops.is_empty() {
            break;
        }
        built = replayed(tree, large, ops);
    }
}

// Adds the scans, of which the first has this number, and deletes what is left. After each update `ring` is called. One scan comes
// a turn, or where no turn is given as soon as the one before is done.
fn add_all(shared: &Shared, first: usize, scans: &[&[Point]], turn: Duration, ring: &dyn Fn()) -> (Times, Times) {
    let (mut added, mut left) = (Times::default(), Times::default());
    for (scan, points) in (first..).zip(scans) {
        let begun = Instant::now();
        added.push(shared.turn(|kept| kept.add(points)).1);
        ring();
        if scan % 10 == 9 {
            left.push(shared.turn(|kept| kept.leave(scan as u32)).1);
            ring();
        }
        thread::sleep(turn.saturating_sub(begun.elapsed()));
    }
    (added, left)
}

fn read(shared: &Shared, places: &[Point]) -> Times {
    let mut times = Times::default();
    let mut hits = Vec::with_capacity(5);
    for place in places.iter().cycle() {
        if !shared.is_on() {
            break;
        }
        let begun = Instant::now();
        hits.clear();
        let kept = shared.lock.read().unwrap();
        near(&kept.map.tree, KEEP, 5, place, &mut hits);
        drop(kept);
        times.push(begun.elapsed());
    }
    times
}

// A map grows by scans to so many points, and then takes three hundred scans more beside a reader.
pub fn run(work: &str, count: u32, asked: u32) {
    let has_builder = work == "steady";
    let large = if has_builder { 1_500 } else { super::LARGE };
    let mut draws = Draws(1);
    let points = draws.points(count + SCANS * POINTS_OF_SCAN);
    let places = draws.places(10_000, points.len() as u32);
    let scans: Vec<&[Point]> = points.chunks(POINTS_OF_SCAN as usize).collect();
    let (before, beside) = scans.split_at(scans.len() - SCANS as usize);
    let map = Map { tree: None, next: 0, sum: 0 };
    let shared = Shared {
        lock: RwLock::new(Kept { map, large, detached: None }),
        is_on: AtomicBool::new(false),
        is_over: AtomicBool::new(!has_builder),
    };
    let mut times = thread::scope(|scope| {
        let builder = scope.spawn(|| rebuild(&shared, large));
        let ring = || builder.thread().unpark();
        add_all(&shared, 0, before, Duration::ZERO, &ring);
        shared.is_on.store(true, Ordering::SeqCst);
        let reader = scope.spawn(|| read(&shared, &places));
        let (added, left) = add_all(&shared, before.len(), beside, TURN, &ring);
        shared.is_on.store(false, Ordering::SeqCst);
        shared.is_over.store(true, Ordering::SeqCst);
        ring();
        let queries = reader.join().unwrap();
        let Turns { detach, swap, log } = builder.join().unwrap();
        [added, left, queries, detach, swap, log]
    });
    for (kind, times) in ["scan", "deletion", "query", "detach", "swap", "log"].iter().zip(&mut times) {
        times.sort();
        eprintln!("{kind} {times}");
    }
    let mut map = shared.lock.into_inner().unwrap().map;
    map.ask(&places);
    println!("{work} {count} {asked} sum {}", map.sum);
}
