// What is near what: clusters grown by searches of the tree, and by a grid of cells, and the points that stand alone.
use super::{Item, KEEP, LIVE, Tree, apply, dist2, live, reach, then, with};
use std::collections::HashMap;

const LISTED: usize = 256;

type Cell = [i64; 3];

// The numbers of the live points no farther than this, in no order.
fn around(tree: &Tree, owed: [u8; 2], q: &[i64; 3], limit: u128, found: &mut Vec<u32>) {
    let Some(node) = tree else { return };
    if live(node, owed) == 0 || reach(node, q) > limit {
        return;
    }
    if apply(owed, node.item.label) == LIVE && dist2(q, &node.item.point) <= limit {
        found.push(node.item.number);
    }
    let below = then(node.pending, owed);
    around(&node.left, below, q, limit, found);
    around(&node.right, below, q, limit, found);
}

// The least number and the size of each cluster, which grows breadth first: near(NUMBER, FOUND) finds what is joined to a point.
fn grown(count: usize, near: impl Fn(u32, &mut Vec<u32>)) -> Vec<(u32, u32)> {
    let mut seen = vec![false; count];
    let (mut groups, mut queue, mut found) = (Vec::new(), Vec::new(), Vec::new());
    for first in 0..count {
        if seen[first] {
            continue;
        }
        seen[first] = true;
        queue.clear();
        queue.push(first as u32);
        let mut done = 0;
        while done < queue.len() {
            found.clear();
            near(queue[done], &mut found);
            done += 1;
            for &number in &found {
                if !seen[number as usize] {
                    seen[number as usize] = true;
                    queue.push(number);
                }
            }
        }
        groups.push((first as u32, queue.len() as u32));
    }
    groups
}

fn sum_of(groups: Vec<(u32, u32)>) -> u64 {
    let sum = with(0, groups.len() as u32, 0);
    groups.iter().take(LISTED).fold(sum, |sum, &(least, size)| with(sum, least, u128::from(size)))
}

pub fn clusters(tree: &Tree, items: &[Item], step: u32) -> u64 {
    let limit = u128::from(step) * u128::from(step);
    sum_of(grown(items.len(), |number, found| around(tree, KEEP, &items[number as usize].point, limit, found)))
}

fn cell(point: &[i64; 3], step: u32) -> Cell {
    point.map(|c| c.div_euclid(i64::from(step.max(1))))
}

// The same by cells as wide as a step is long: what is joined to a point lies in its cell or beside it.
pub fn by_cells(items: &[Item], step: u32) -> u64 {
    let limit = u128::from(step) * u128::from(step);
    let mut cells: HashMap<Cell, Vec<u32>> = HashMap::new();
    for item in items {
        cells.entry(cell(&item.point, step)).or_default().push(item.number);
    }
    let beside: Vec<Cell> = (0..27).map(|at| [at / 9 - 1, at / 3 % 3 - 1, at % 3 - 1]).collect();
    sum_of(grown(items.len(), |number, found| {
        let point = &items[number as usize].point;
        let [x, y, z] = cell(point, step);
        for [a, b, c] in &beside {
            let near = cells.get(&[x + a, y + b, z + c]).into_iter().flatten();
            found.extend(near.filter(|&&other| dist2(point, &items[other as usize].point) <= limit));
        }
    }))
}

// Whether another live point than this one lies so near.
fn has_other(tree: &Tree, owed: [u8; 2], item: &Item, limit: u128) -> bool {
    let Some(node) = tree else { return false };
    if live(node, owed) == 0 || reach(node, &item.point) > limit {
        return false;
    }
    let own = &node.item;
    if own.number != item.number && apply(owed, own.label) == LIVE && dist2(&item.point, &own.point) <= limit {
        return true;
    }
    let below = then(node.pending, owed);
    has_other(&node.left, below, item, limit) || has_other(&node.right, below, item, limit)
}

pub fn lonely(tree: &Tree, items: &[Item], step: u32) -> u64 {
    let limit = u128::from(step) * u128::from(step);
    let alone: Vec<u32> =
        items.iter().filter(|item| !has_other(tree, KEEP, item, limit)).map(|item| item.number).collect();
    let sum = with(0, alone.len() as u32, 0);
    alone.iter().take(LISTED).fold(sum, |sum, &number| with(sum, number, 0))
}
