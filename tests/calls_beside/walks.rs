//! Copies of links' walks.

use crate::stopped::Stopped;
use fb_links::{Links, Step, Walk};
use std::alloc::Global;

/// A step over the edge `edge`, which has this number's vertex and the next one as its ends.
fn step(edge: u32) -> Step {
    Step {
        from: edge,
        to: edge + 1,
        edge,
        weight: 2 * u64::from(edge) + 2,
    }
}

/// Whether the walk leads over the edges from `first` to the one before `end`.
fn leads_over(walk: &Walk, first: u32, end: u32) -> bool {
    let steps = walk.steps();
    steps.len() == (end - first) as usize
        && steps.iter().zip(first..end).all(|(found, edge)| {
            let wanted = step(edge);
            found.from == wanted.from
                && found.to == wanted.to
                && found.edge == edge
                && found.weight == wanted.weight
        })
}

/// The walks of two links, one over the edges 0 to 2 and one over the edge 3; of the two joined; and of the second when the
/// first is forgotten and its number is another link's.
pub fn are_copied(alloc: Global) -> Result<(), Stopped> {
    let mut links = Links::new(alloc)?;
    let long = links.make(alloc, Walk::from_vec(vec![in alloc; step(0), step(1), step(2)]?))?;
    let short = links.make(alloc, Walk::from_vec(vec![in alloc; step(3)]?))?;
    let both = links.join_ends(alloc, long, short)?;
    Stopped::unless(leads_over(&links.walk(alloc, long)?, 0, 3), "the walk of three steps")?;
    Stopped::unless(leads_over(&links.walk(alloc, short)?, 3, 4), "the walk of one step")?;
    Stopped::unless(leads_over(&links.walk(alloc, both)?, 0, 4), "the joined walk")?;
    links.forget(long);
    let other = links.make(alloc, Walk::from_vec(vec![in alloc; step(5)]?))?;
    Stopped::unless(other == long, "the number of the next link")?;
    Stopped::unless(leads_over(&links.walk(alloc, other)?, 5, 6), "the walk under a number used again")?;
    Stopped::unless(leads_over(&links.walk(alloc, short)?, 3, 4), "the walk that stayed")
}
