// Many searches whose answers are kept: one after the other, or by as many threads as there are processors.
use super::{Hit, KEEP, Tree, near};
use std::thread;

type Point = [i64; 3];

pub fn singly(tree: &Tree, places: &[Point]) -> Vec<Vec<Hit>> {
    let answer = |place| {
        let mut hits = Vec::with_capacity(5);
        near(tree, KEEP, 5, place, &mut hits);
        hits
    };
    places.iter().map(answer).collect()
}

pub fn at_once(tree: &Tree, places: &[Point]) -> Vec<Vec<Hit>> {
    let threads = thread::available_parallelism().map_or(1, usize::from);
    let pieces = places.chunks(places.len().div_ceil(threads).max(1));
    thread::scope(|scope| {
        let answers: Vec<_> = pieces.map(|piece| scope.spawn(move || singly(tree, piece))).collect();
        answers.into_iter().flat_map(|answer| answer.join().unwrap()).collect()
    })
}
