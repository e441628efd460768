//! The first search on a graph whose blossom is opened later: three of the six edges leave the defect that it begins at.

use crate::asking::{Asker, step};
use crate::game::Game;
use crate::moves::Move;
use crate::obstacles::Found;
use crate::roles::DrawnRoles;
use crate::stopped::Stopped;
use fb_graph::Graph;
use fb_obstacles::NodeId;
use std::alloc::Global;

const EDGES: [(u64, u64, i128); 6] = [
    (0, 1, 20),
    (1, 2, 20),
    (0, 2, 20),
    (2, 3, 14),
    (0, 4, 24),
    (1, 5, 16),
];
const BOUNDARY: u64 = 5;
const DEFECTS: u32 = 5;

/// The edges that leave the first defect. A call looks at each watched edge at most once, so at no more than three.
const LEAVING: [u32; 3] = [0, 2, 4];

/// Watches the edges that leave the first defect and no other, and asks what is in its way before and after its step.
pub fn play_first_search(alloc: Global, asker: &mut Asker) -> Result<(), Stopped> {
    let graph = Graph::build(alloc, BOUNDARY + 1, &EDGES, &[BOUNDARY])?;
    let mut game = Game::new(alloc, None, &graph, 0)?;
    for vertex in 0..DEFECTS {
        let name = NodeId::from(vertex);
        game.make(alloc, &Move::Open { name, vertex })?;
    }
    let roles = DrawnRoles::of_one_plus(alloc, &game.plain, 0)?;
    game.watched.enter_needed(&graph, &game.readings, &roles);
    let edges = game.watched.watch.edges();
    if edges != LEAVING.as_slice() {
        let text = format!(in alloc; "edges() is {edges:?}, expected {LEAVING:?}")?;
        return Err(Stopped::Differ(text));
    }

    let answer = asker.compare_answers(&mut game, &roles)?;
    if answer != Found::Free(20) {
        let text = format!(in alloc; "{answer:?} is in the way of a first step, expected Free(20)")?;
        return Err(Stopped::Differ(text));
    }
    step(alloc, &mut game, &roles, 20)?;
    let answer = asker.compare_answers(&mut game, &roles)?;
    if answer != Found::Meet(0) && answer != Found::Meet(2) {
        let text = format!(in alloc; "{answer:?} is in the way after 20, expected Meet(0) or Meet(2)")?;
        return Err(Stopped::Differ(text));
    }
    Ok(())
}
