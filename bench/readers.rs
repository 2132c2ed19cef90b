// Readers beside a writer, each on a thread of its own, as in map_bench. Here they ask one tree behind a lock, which readers share.
use super::{Draws, KEEP, Map, POINTS_OF_SCAN, near};
use std::sync::RwLock;
use std::thread;
use std::time::{Duration, Instant};

type Point = [i64; 3];

// So many scans are added beside the readers.
const SCANS: u32 = 100;

struct Kept {
    map: Map,
    updates: u32,
}

// Adds the scans, of which the first has this number, and deletes what is left. Each update is a turn of the lock.
fn add_all(lock: &RwLock<Kept>, first: usize, scans: &[&[Point]]) {
    for (scan, points) in (first..).zip(scans) {
        update(lock, |map| map.add(points));
        if scan % 10 == 9 {
            update(lock, |map| map.leave(scan as u32));
        }
    }
}

// The same with a pause before each scan. How long it took without the pauses.
fn add_timed(lock: &RwLock<Kept>, first: usize, scans: &[&[Point]], pause: Duration) -> Duration {
    let mut took = Duration::ZERO;
    for (scan, points) in (first..).zip(scans) {
        if !pause.is_zero() {
            thread::sleep(pause);
        }
        let begun = Instant::now();
        add_all(lock, scan, &[points]);
        took += begun.elapsed();
    }
    took
}

fn update(lock: &RwLock<Kept>, change: impl Fn(&mut Map)) {
    let mut kept = lock.write().unwrap();
    change(&mut kept.map);
    kept.updates += 1;
}

// Asks again and again until it sees the last update: how many queries there were, and the longest.
fn read(lock: &RwLock<Kept>, last: u32, places: &[Point]) -> (u32, Duration) {
    let mut hits = Vec::with_capacity(5);
    let mut queries = 0;
    let mut longest = Duration::ZERO;
    for place in places.iter().cycle() {
        let begun = Instant::now();
        hits.clear();
        let kept = lock.read().unwrap();
        near(&kept.map.tree, KEEP, 5, place, &mut hits);
        let updates = kept.updates;
        drop(kept);
        longest = longest.max(begun.elapsed());
        queries += 1;
        if updates == last {
            break;
        }
    }
    (queries, longest)
}

// A map grows by scans to so many points, and then by a hundred scans more, with a pause before each, beside so many readers.
pub fn run(work: &str, count: u32, readers: u32, pause: Duration) {
    let mut draws = Draws(1);
    let points = draws.points(count + SCANS * POINTS_OF_SCAN);
    let places = draws.places(10_000, points.len() as u32);
    let scans: Vec<&[Point]> = points.chunks(POINTS_OF_SCAN as usize).collect();
    let (before, beside) = scans.split_at(scans.len() - SCANS as usize);
    let lock = RwLock::new(Kept { map: Map { tree: None, next: 0, sum: 0 }, updates: 0 });
    add_all(&lock, 0, before);
    let last = (scans.len() + scans.len() / 10) as u32;
    let begun = Instant::now();
    let (written, read) = thread::scope(|scope| {
        let writer = scope.spawn(|| add_timed(&lock, before.len(), beside, pause));
        let readers: Vec<_> = (0..readers).map(|_| scope.spawn(|| read(&lock, last, &places))).collect();
        let read: Vec<_> = readers.into_iter().map(|reader| reader.join().unwrap()).collect();
        (writer.join().unwrap(), read)
    });
    let seconds = begun.elapsed().as_secs_f64();
    let queries: u32 = read.iter().map(|reader| reader.0).sum();
    let longest = read.iter().map(|reader| reader.1).max().unwrap();
    let mut map = lock.into_inner().unwrap().map;
    map.ask(&places);
    eprintln!("{:.0} {} {}", queries as f64 / seconds, longest.as_micros(), written.as_micros() / SCANS as u128);
    println!("{work} {count} {readers} sum {}", map.sum);
}
