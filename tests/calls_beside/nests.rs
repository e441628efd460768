//! Outer nodes and paths of blossoms that lie in one another.

use crate::stopped::Stopped;
use fb_blossoms::{Blossoms, CycleStep, LinkId, Links, NodeId};
use fb_links::{Step, Walk};
use std::alloc::Global;

/// How many blossoms lie in one another.
const LEVELS: u32 = 20_000;

fn link(alloc: Global, links: &mut Links, from: u32, to: u32) -> Result<LinkId, Stopped> {
    let step = Step {
        from,
        to,
        edge: 0,
        weight: 2,
    };
    Ok(links.make(alloc, Walk::from_vec(vec![in alloc; step]?))?)
}

/// Makes a blossom of an outer node that holds the defect `last`, and of the next two defects.
fn wrap(
    alloc: Global,
    blossoms: &mut Blossoms,
    links: &mut Links,
    inner: NodeId,
    last: u32,
) -> Result<NodeId, Stopped> {
    let first = blossoms.leaf(alloc, last + 1)?;
    let second = blossoms.leaf(alloc, last + 2)?;
    let mut cycle = Vec::new(alloc);
    for (node, from, to) in [
        (inner, last, last + 1),
        (first, last + 1, last + 2),
        (second, last + 2, last),
    ] {
        let link = link(alloc, links, from, to)?;
        cycle.push(CycleStep { node, link })?;
    }
    Ok(blossoms.form(alloc, cycle, links)?)
}

/// Makes a blossom of three outer nodes that hold these defects.
fn ring(
    alloc: Global,
    blossoms: &mut Blossoms,
    links: &mut Links,
    nodes: [(NodeId, u32); 3],
) -> Result<NodeId, Stopped> {
    let mut cycle = Vec::new(alloc);
    for i in 0..3 {
        let (node, from) = nodes[i];
        let link = link(alloc, links, from, nodes[(i + 1) % 3].1)?;
        cycle.push(CycleStep { node, link })?;
    }
    Ok(blossoms.form(alloc, cycle, links)?)
}

/// Five leaves hold the defects 10 to 14. The first three are in one blossom, which is in another with the last two. The
/// outer node of the second leaf is the larger blossom until that is opened, and then the smaller one.
pub fn finds_outer_nodes(alloc: Global) -> Result<(), Stopped> {
    let mut blossoms = Blossoms::new(alloc)?;
    let mut links = Links::new(alloc)?;
    let mut leaves = [0; 5];
    for i in 0..5 {
        leaves[i] = blossoms.leaf(alloc, 10 + i as u32)?;
    }
    let [a, b, c, d, e] = leaves;
    Stopped::unless(blossoms.outer_of(b) == b, "the outer node of a leaf in no blossom")?;
    let inner = ring(alloc, &mut blossoms, &mut links, [(a, 10), (b, 11), (c, 12)])?;
    let outer = ring(alloc, &mut blossoms, &mut links, [(inner, 12), (d, 13), (e, 14)])?;
    Stopped::unless(blossoms.outer_of(b) == outer, "the outer node of a leaf two blossoms deep")?;
    Stopped::unless(blossoms.outer_of(inner) == outer, "the outer node of the inner blossom")?;
    Stopped::unless(blossoms.child_holding(outer, 11) == inner, "the child that holds a defect")?;
    let cycle = blossoms.open_up(outer);
    let nodes = (cycle[0].node, cycle[1].node, cycle[2].node);
    Stopped::unless(nodes == (inner, d, e), "the nodes of the opened blossom")?;
    Stopped::unless(blossoms.outer_of(b) == inner, "the outer node after the larger one was opened")
}

/// The path in the outermost of `LEVELS` blossoms, each of which lies in the next, from the last defect to the first, leads
/// at each level over the one leaf to the node inside.
pub fn goes_through_levels(alloc: Global) -> Result<(), Stopped> {
    let mut blossoms = Blossoms::new(alloc)?;
    let mut links = Links::new(alloc)?;
    let mut outer = blossoms.leaf(alloc, 0)?;
    for level in 0..LEVELS {
        outer = wrap(alloc, &mut blossoms, &mut links, outer, 2 * level)?;
    }
    let path = blossoms.path_between(alloc, outer, 2 * LEVELS, 0, &links)?;
    Stopped::unless(path.len() == 2 * LEVELS as usize, "the length of the path")?;
    for (place, found) in path.iter().enumerate() {
        let level = u64::from(LEVELS) - 1 - place as u64 / 2;
        let wanted = if place % 2 == 0 { 3 * level + 1 } else { 3 * level };
        Stopped::unless(*found == wanted, "a link of the path")?;
    }
    Stopped::unless(blossoms.outer_of(0) == outer, "the outer node round all others")
}
