// The work of `mapper drive N` in plain Rust: generated scans are thinned into a tree and asked for, and what is left behind
// is deleted. Where nodes are shared by versions, the version before each update is held during it.
use crate::pointers::held;
use crate::{live_of, near, Draws, Hit, Map, KEEP, POINTS_OF_SCAN};

const WITHIN: u128 = 2_000;

fn near_robot(map: &Map, scan: u32, within: u128) -> usize {
    let mut hits: Vec<Hit> = Vec::with_capacity(5);
    near(&map.tree, KEEP, 5, &[1000 * scan as i64, 0, 0], &mut hits);
    hits.iter().filter(|hit| hit.dist2 <= within).count()
}

/// The line of so many scans.
pub fn summary(scans: u32) -> String {
    let mut draws = Draws(1);
    let mut map = Map { tree: None, next: 0, sum: 0 };
    let mut hits = 0;
    for scan in 0..scans {
        let points: Vec<_> = (0..POINTS_OF_SCAN).map(|_| draws.point(scan)).collect();
        map.thin(&points);
        hits += near_robot(&map, scan, u128::MAX) + near_robot(&map, scan, WITHIN * WITHIN);
        if scan % 10 == 9 {
            let _before = held(&map.tree);
            map.leave(scan);
        }
    }
    let (commands, points, live) = (4 * scans + scans / 10, map.next, live_of(&map.tree));
    format!("drive {scans} commands {commands} points {points} live {live} suspended 0 hits {hits}")
}
