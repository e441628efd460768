//! Paths and cycles in a tree of three branches.

use crate::stopped::Stopped;
use fb_links::{Step, Walk};
use fb_trees::{CycleStep, LinkId, Links, NodeId, Tree};
use std::alloc::Global;

fn step(node: NodeId, link: LinkId) -> CycleStep {
    CycleStep { node, link }
}

/// Links of one step each, under the numbers 0 to 20.
fn some_links(alloc: Global) -> Result<Links, Stopped> {
    let mut links = Links::new(alloc)?;
    for number in 0..21 {
        let step = Step {
            from: number,
            to: number + 1,
            edge: number,
            weight: 2,
        };
        links.make(alloc, Walk::from_vec(vec![in alloc; step]?))?;
    }
    Ok(links)
}

/// Below the root 0 the branches 1, 2 and 3, 4, and below 2 the branch 5, 6. The links are 10 to 15 in that order.
fn three_branches(alloc: Global, links: &Links) -> Result<Tree, Stopped> {
    let mut tree = Tree::start(alloc, 0)?;
    tree.attach(alloc, 0, 10, 1, step(2, 11), links)?;
    tree.attach(alloc, 0, 12, 3, step(4, 13), links)?;
    tree.attach(alloc, 2, 14, 5, step(6, 15), links)?;
    Ok(tree)
}

/// Whether the steps lead over these nodes and links.
fn are_alike(steps: &[CycleStep], wanted: &[(NodeId, LinkId)]) -> bool {
    steps.len() == wanted.len()
        && steps
            .iter()
            .zip(wanted)
            .all(|(step, other)| step.node == other.0 && step.link == other.1)
}

/// The path from node 6 leads over both branches to the root; two branches lead to that node, and one is beside them. The
/// cycle that link 20 closes between the nodes 6 and 4 goes from the root to 6 and back over 4.
pub fn finds_paths_and_cycles(alloc: Global) -> Result<(), Stopped> {
    let links = some_links(alloc)?;
    let tree = three_branches(alloc, &links)?;
    let path = tree.path_to_root(alloc, 6)?;
    let wanted = [(6, 15), (5, 14), (2, 11), (1, 10)];
    Stopped::unless(are_alike(&path, &wanted), "the path to the root")?;
    let counts = (tree.branches_to(alloc, 6)?.len(), tree.branches_beside(alloc, 6)?.len());
    Stopped::unless(counts == (2, 1), "the number of branches")?;
    let cycle = tree.cycle_of(alloc, 6, 4, 20, &links)?;
    let wanted = [(0, 10), (1, 11), (2, 14), (5, 15), (6, 20), (4, 13), (3, 12)];
    Stopped::unless(are_alike(&cycle, &wanted), "the cycle")
}
