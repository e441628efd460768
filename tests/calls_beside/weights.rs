//! Shots in which some edges weigh otherwise than in their graph, and the verdicts of their rows.

use crate::lines::{Known, Line};
use crate::stopped::Stopped;
use fb_graph::{CutList, Graph, NumberList, Row, Shot};
use fb_verify::{Judge, Verdict, check_row};
use std::alloc::Global;

/// What the line's edges weigh.
const WEIGHTS: [i128; 4] = [4, 2, 6, 8];

/// The shot of these defects and changes.
fn shot_of(alloc: Global, graph: &Graph, defects: &[u32], changes: &[(u32, i64)]) -> Result<Shot, Stopped> {
    let changes = Vec::from_slice(alloc, changes)?;
    Ok(Shot::with_changes(graph, Vec::from_slice(alloc, defects)?, changes)?)
}

/// Whether the shot has these defects, and the graph's edges have these weights for it.
fn is_shot(shot: &Shot, graph: &Graph, defects: &[u32], weights: &[i64]) -> bool {
    graph.edge_count() as usize == weights.len()
        && shot.as_slice() == defects
        && (0..graph.edge_count()).zip(weights.iter()).all(|(e, weight)| {
            shot.weight(graph, e) == *weight && shot.absolute_weight(graph, e) == weight.unsigned_abs()
        })
}

/// Whether the shot and a copy of it have these defects and weights, the copy also after the shot is gone.
fn are_alike(alloc: Global, shot: Shot, graph: &Graph, defects: &[u32], weights: &[i64]) -> Result<bool, Stopped> {
    let is_right = is_shot(&shot, graph, defects, weights);
    let copy = shot.copy(alloc)?;
    drop(shot);
    Ok(is_right && is_shot(&copy, graph, defects, weights))
}

/// Changes of no edge, of the first and the last one, of two in the middle, of all, and one that changes nothing.
pub fn are_those_of_the_shot(alloc: Global) -> Result<(), Stopped> {
    let line = Line::new(alloc, &WEIGHTS, &[])?;
    let graph = &line.graph;
    let plain = Shot::from_defects(graph, Vec::from_slice(alloc, &[3, 1])?)?;
    Stopped::unless(are_alike(alloc, plain, graph, &[1, 3], &[4, 2, 6, 8])?, "a shot without changes")?;
    let ends = shot_of(alloc, graph, &[2, 3, 1], &[(0, 10), (3, 0)])?;
    Stopped::unless(are_alike(alloc, ends, graph, &[1, 2, 3], &[10, 2, 6, 0])?, "the first and the last edge")?;
    let middle = shot_of(alloc, graph, &[], &[(1, 0), (2, 1 << 30)])?;
    Stopped::unless(are_alike(alloc, middle, graph, &[], &[4, 0, 1 << 30, 8])?, "two edges in the middle")?;
    let all = shot_of(alloc, graph, &[2], &[(0, 8), (1, 6), (2, 2), (3, 4)])?;
    Stopped::unless(are_alike(alloc, all, graph, &[2], &[8, 6, 2, 4])?, "all edges")?;
    let same = shot_of(alloc, graph, &[2], &[(2, 6)])?;
    Stopped::unless(are_alike(alloc, same, graph, &[2], &[4, 2, 6, 8])?, "a change to the same weight")
}

/// Whether a shot of these changes has these weights, and turns the parity of negative edges at these real vertices.
fn turns(
    alloc: Global,
    graph: &Graph,
    changes: &[(u32, i64)],
    weights: &[i64],
    turned: &[u32],
) -> Result<bool, Stopped> {
    let shot = shot_of(alloc, graph, &[2], changes)?;
    let copy = shot.copy(alloc)?;
    Ok(shot.turned() == turned && copy.turned() == turned && are_alike(alloc, shot, graph, &[2], weights)?)
}

/// Changes that turn a sign either way, at a virtual vertex, at both sides of a vertex, and of none; and what the graph
/// has.
pub fn turn_signs(alloc: Global) -> Result<(), Stopped> {
    let line = Line::new(alloc, &[4, -2, 6, -8], &[])?;
    let graph = &line.graph;
    let is_known = graph.negatives() == [1, 3].as_slice() && graph.base() == -10;
    Stopped::unless(is_known, "the negative edges, and their sum")?;
    Stopped::unless(graph.turned() == [1, 2, 3].as_slice(), "the vertices with an odd number of them")?;
    let is_signed = graph.weight(1) == -2 && graph.absolute_weight(1) == 2;
    Stopped::unless(is_signed && graph.weight(0) == 4 && graph.is_negative(3) && !graph.is_negative(2), "signs")?;
    Stopped::unless(turns(alloc, graph, &[], &[4, -2, 6, -8], &[])?, "no changes")?;
    Stopped::unless(turns(alloc, graph, &[(1, 2)], &[4, 2, 6, -8], &[1, 2])?, "a sign that is taken away")?;
    Stopped::unless(turns(alloc, graph, &[(0, -4)], &[-4, -2, 6, -8], &[1])?, "one that comes, at a virtual vertex")?;
    Stopped::unless(turns(alloc, graph, &[(1, 0), (3, 0)], &[4, 0, 6, 0], &[1, 2, 3])?, "weights of 0 have none")?;
    Stopped::unless(turns(alloc, graph, &[(1, 4), (2, -6)], &[4, 4, -6, -8], &[1, 3])?, "two edges at one vertex")?;
    Stopped::unless(turns(alloc, graph, &[(1, -6), (2, 2)], &[4, -6, 2, -8], &[])?, "changes that keep the signs")?;
    let least = -(1 << 30);
    Stopped::unless(turns(alloc, graph, &[(0, least)], &[least, -2, 6, -8], &[1])?, "the least weight")
}

/// The row of a correction with these cuts.
fn row_of(alloc: Global, edges: &[u32], weight: i128, cuts: &[Known<'_>]) -> Result<Row, Stopped> {
    row_with_base(alloc, edges, (0, weight), cuts)
}

/// The row of a correction with this base and weight.
fn row_with_base(
    alloc: Global,
    edges: &[u32],
    (base, weight): (i128, i128),
    cuts: &[Known<'_>],
) -> Result<Row, Stopped> {
    let mut list = CutList::new(alloc);
    for (value, vertices) in cuts {
        list.push(*value, vertices)?;
    }
    Ok(Row::Best {
        edges: NumberList::from_vec(Vec::from_slice(alloc, edges)?),
        base,
        weight,
        cuts: list,
    })
}

/// The defect at 1, whose best correction is edge 0: a row that is good by the graph's weights is bad by the shot's, and the
/// other way round, with edge 0 erased, with edge 2 erased, and with edge 1 heavier.
pub fn decide_what_is_good(alloc: Global) -> Result<(), Stopped> {
    let line = Line::new(alloc, &WEIGHTS, &[])?;
    let graph = &line.graph;
    let plain = shot_of(alloc, graph, &[1], &[])?;
    let row = row_of(alloc, &[0], 4, &[(2, &[1]), (2, &[1, 2])])?;
    Stopped::unless(matches!(check_row(alloc, graph, &plain, &row)?, Verdict::Good), "the row of the graph")?;

    let erased = shot_of(alloc, graph, &[1], &[(0, 0)])?;
    let found = check_row(alloc, graph, &erased, &row)?;
    Stopped::unless(matches!(found, Verdict::WeightNotSum(4, 0)), "the row of the graph with edge 0 erased")?;
    let free = row_of(alloc, &[0], 0, &[])?;
    Stopped::unless(matches!(check_row(alloc, graph, &erased, &free)?, Verdict::Good), "the row with edge 0 erased")?;
    let found = check_row(alloc, graph, &plain, &free)?;
    Stopped::unless(matches!(found, Verdict::WeightNotSum(0, 4)), "that row for a shot without changes")?;

    let erased = shot_of(alloc, graph, &[1], &[(2, 0)])?;
    let found = check_row(alloc, graph, &erased, &row)?;
    Stopped::unless(matches!(found, Verdict::Overloaded(2)), "the row of the graph with edge 2 erased")?;
    let wide = row_of(alloc, &[0], 4, &[(2, &[1]), (2, &[1, 2, 3])])?;
    Stopped::unless(matches!(check_row(alloc, graph, &erased, &wide)?, Verdict::Good), "the row with edge 2 erased")?;

    let heavier = shot_of(alloc, graph, &[1], &[(1, 4)])?;
    let single = row_of(alloc, &[0], 4, &[(4, &[1])])?;
    Stopped::unless(matches!(check_row(alloc, graph, &heavier, &single)?, Verdict::Good), "the row with edge 1 heavier")?;
    let found = check_row(alloc, graph, &plain, &single)?;
    Stopped::unless(matches!(found, Verdict::Overloaded(1)), "that row for a shot without changes")
}

/// No defect on the line whose edge 1 is negative, in the graph or by the shot alone: the row has its base, or is bad.
pub fn judge_a_base(alloc: Global) -> Result<(), Stopped> {
    let (plain, signed) = (Line::new(alloc, &WEIGHTS, &[])?, Line::new(alloc, &[4, -2, 6, 8], &[])?);
    let empty = row_of(alloc, &[], 0, &[])?;
    let right = row_with_base(alloc, &[], (-2, 0), &[(1, &[1]), (1, &[2])])?;
    for (line, changes) in [(&signed, [].as_slice()), (&plain, &[(1, -2)])] {
        let shot = shot_of(alloc, &line.graph, &[], changes)?;
        let found = check_row(alloc, &line.graph, &shot, &right)?;
        Stopped::unless(matches!(found, Verdict::Good), "the row with its base")?;
        let found = check_row(alloc, &line.graph, &shot, &empty)?;
        Stopped::unless(matches!(found, Verdict::BaseDiffers(0, -2)), "the row of a graph without signs")?;
        let even = row_with_base(alloc, &[], (-2, 0), &[(2, &[1, 2])])?;
        let found = check_row(alloc, &line.graph, &shot, &even)?;
        Stopped::unless(matches!(found, Verdict::CutEven(0)), "a cut with both ends")?;
        let few = row_with_base(alloc, &[], (-2, 0), &[(1, &[1])])?;
        let found = check_row(alloc, &line.graph, &shot, &few)?;
        Stopped::unless(matches!(found, Verdict::SumDiffers(0, -1)), "a cut fewer")?;
    }
    let turned = shot_of(alloc, &signed.graph, &[], &[(1, 2)])?;
    let found = check_row(alloc, &signed.graph, &turned, &empty)?;
    Stopped::unless(matches!(found, Verdict::Good), "a sign that the shot takes away")
}

/// Without boundary one defect has no correction, whatever the edges weigh: an erased edge still joins its ends.
pub fn leave_odd_shots_odd(alloc: Global) -> Result<(), Stopped> {
    let graph = Graph::build(alloc, 3, &[(0, 1, 4), (1, 2, 6)], &[])?;
    let mut judge = Judge::new(&graph);
    for changes in [[].as_slice(), &[(0, 0)], &[(0, 0), (1, 0)]] {
        let shot = shot_of(alloc, &graph, &[1], changes)?;
        let found = judge.check_row(alloc, &shot, &Row::Odd(0))?;
        Stopped::unless(matches!(found, Verdict::Good), "the odd row of the least vertex")?;
        let found = judge.check_row(alloc, &shot, &Row::Odd(1))?;
        Stopped::unless(matches!(found, Verdict::OddWrong(1)), "the odd row of the defect")?;
    }
    Ok(())
}
