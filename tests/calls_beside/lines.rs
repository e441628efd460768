//! Graphs that are lines, whose ends are boundary, with plans of units in a row; and rows of such graphs.

use crate::stopped::Stopped;
use fb_graph::{CutList, Graph, Row, Shot};
use fb_plan::{Join, Plan};
use std::alloc::Global;

/// A line and its plan.
#[derive(Drop)]
pub struct Line {
    pub graph: Graph,
    pub plan: Plan,
}

impl Line {
    /// The line of edges of these weights. Its plan has a unit before each of these vertices and behind the last one. Each
    /// is owned by a fusion of all units before it with the one behind it.
    pub fn new(alloc: Global, weights: &[i128], seams: &[u64]) -> Result<Line, Stopped> {
        let last = weights.len() as u64;
        let mut edges = Vec::new(alloc);
        for (v, weight) in weights.iter().enumerate() {
            edges.push((v as u64, v as u64 + 1, *weight))?;
        }
        let graph = Graph::build(alloc, last + 1, &edges, &[0, last])?;
        let (mut units, mut fusions, mut first) = (Vec::new(alloc), Vec::new(alloc), 1);
        for (i, seam) in seams.iter().enumerate() {
            units.push(vec![in alloc; (first, *seam)]?)?;
            fusions.push(Join {
                left: if i == 0 { 0 } else { seams.len() as u64 + i as u64 },
                right: i as u64 + 1,
                seam: vec![in alloc; (*seam, *seam + 1)]?,
            })?;
            first = *seam + 1;
        }
        units.push(vec![in alloc; (first, last)]?)?;
        let plan = Plan::build(alloc, &graph, &units, &fusions)?;
        Ok(Line { graph, plan })
    }

    /// The shot of these defects, which rise.
    pub fn shot(&self, alloc: Global, defects: &[u32]) -> Result<Shot, Stopped> {
        Ok(Shot::from_rising(&self.graph, Vec::from_slice(alloc, defects)?))
    }
}

/// A cut as a report shows it.
pub type Known<'a> = (u64, &'a [u32]);

/// Whether the row has these edges, this weight and these cuts, where no edge is negative.
pub fn is_row(row: &Row, edges: &[u32], weight: i128, cuts: &[Known<'_>]) -> bool {
    match row {
        Row::Best {
            edges: found,
            base,
            weight: sum,
            cuts: list,
        } => found.as_slice() == edges && *base == 0 && *sum == weight && are_cuts(list, cuts),
        Row::Odd(_) => false,
    }
}

fn are_cuts(found: &CutList, cuts: &[Known<'_>]) -> bool {
    if found.len() != cuts.len() {
        return false;
    }
    for (place, (value, vertices)) in cuts.iter().enumerate() {
        if found.value(place) != *value || found.vertices(place) != *vertices {
            return false;
        }
    }
    true
}
