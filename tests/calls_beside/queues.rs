//! Due times of edges and of minus nodes: which of several with the same growth is first.

use crate::stopped::Stopped;
use fb_obstacles::queue::DueTimes;
use std::alloc::{AllocError, Global};

/// The numbers of all due times, in the order in which they are due.
fn taken_out(alloc: Global, mut queue: DueTimes) -> Result<Vec<u64>, AllocError> {
    let mut numbers = Vec::new(alloc);
    while let Some(due) = queue.pop_before(None) {
        numbers.push(due.number)?;
    }
    Ok(numbers)
}

/// Of edges that are due with the same growth, and of minus nodes, the first that came is first, whatever its number; one that is
/// put off comes after all that have its new growth.
pub fn are_first_come_first(alloc: Global) -> Result<(), Stopped> {
    let mut edges = DueTimes::new(alloc);
    edges.make_room(6)?;
    for (growth, number) in [(8, 5), (6, 7), (6, 2), (8, 1), (6, 9), (8, 3)] {
        Stopped::unless(edges.push(growth, number), "the room that was taken")?;
    }
    let numbers = taken_out(alloc, edges)?;
    Stopped::unless(numbers.as_slice() == [7, 2, 9, 5, 1, 3].as_slice(), "the order of edges")?;
    let mut nodes = DueTimes::new(alloc);
    for (growth, number) in [(4, 6), (8, 5), (4, 8), (4, 1), (8, 0)] {
        nodes.add(growth, number)?;
    }
    nodes.postpone_first(8);
    nodes.drop_first();
    let numbers = taken_out(alloc, nodes)?;
    Stopped::unless(numbers.as_slice() == [1, 5, 0, 6].as_slice(), "the order of minus nodes")
}
