//! Layers of graphs, and plans that cut them.

use crate::stopped::Stopped;
use fb_graph::Graph;
use fb_layers::{ByLayers, layers};
use fb_plan::{Plan, PlanFault};
use fb_plan_in::read_plan;
use fb_plan_out::plan_text;
use std::alloc::Global;

/// A chain of three real vertices between two virtual ones.
fn chain(alloc: Global) -> Result<Graph, Stopped> {
    let edges = [(0, 1, 2), (1, 2, 4), (2, 3, 2), (3, 4, 6)];
    Ok(Graph::build(alloc, 5, &edges, &[0, 4])?)
}

/// A triangle with an edge to a virtual vertex.
fn triangle(alloc: Global) -> Result<Graph, Stopped> {
    let edges = [(0, 1, 2), (1, 2, 2), (0, 2, 2), (2, 3, 10)];
    Ok(Graph::build(alloc, 4, &edges, &[3])?)
}

/// A triangle, a path and a single vertex, about a virtual vertex that joins none of them.
fn components(alloc: Global) -> Result<Graph, Stopped> {
    let edges = [(1, 2, 2), (2, 5, 2), (5, 1, 2), (0, 3, 2), (3, 6, 2), (6, 8, 2), (4, 1, 2), (4, 0, 2), (4, 7, 2)];
    Ok(Graph::build(alloc, 9, &edges, &[4])?)
}

pub fn are_distances(alloc: Global) -> Result<(), Stopped> {
    let graph = components(alloc)?;
    let found = layers(alloc, &graph)?;
    let expected = [Some(0), Some(0), Some(1), Some(1), None, Some(1), Some(2), Some(0), Some(3)];
    for (v, layer) in expected.iter().enumerate() {
        Stopped::unless(found.layer(v as u32) == *layer, "a layer")?;
    }
    Stopped::unless(found.height() == 4, "the number of layers")
}

pub fn are_cut(alloc: Global) -> Result<(), Stopped> {
    let graph = chain(alloc)?;
    let plan = Plan::by_layers(alloc, &graph, 2)?;
    let expected = [None, Some(0), Some(2), Some(1), None];
    for (v, owner) in expected.iter().enumerate() {
        Stopped::unless(plan.owner(v as u32) == *owner, "an owner")?;
    }
    Stopped::unless(plan.units() == 2 && plan.nodes() == 3, "the nodes")?;
    Stopped::unless(plan.children(2) == Some((0, 1)), "the children of the fusion")
}

pub fn are_too_few(alloc: Global) -> Result<(), Stopped> {
    has_too_few(alloc, &chain(alloc)?, 3, 3)?;
    has_too_few(alloc, &triangle(alloc)?, 2, 2)?;
    has_too_few(alloc, &Graph::build(alloc, 1, &[], &[0])?, 2, 0)
}

pub fn make_texts(alloc: Global) -> Result<(), Stopped> {
    let chain = chain(alloc)?;
    has_text(alloc, &chain, 1, "{\"units\":[[[1,4]]],\"fusions\":[]}\n")?;
    has_text(alloc, &chain, 2, "{\"units\":[[[1,2]],[[3,4]]],\"fusions\":[{\"of\":[0,1],\"interface\":[[2,3]]}]}\n")?;
    has_text(alloc, &triangle(alloc)?, 1, "{\"units\":[[[0,3]]],\"fusions\":[]}\n")?;
    let none = Graph::build(alloc, 1, &[], &[0])?;
    has_text(alloc, &none, 1, "{\"units\":[[]],\"fusions\":[]}\n")?;
    // a run ends at the virtual vertex
    let components = components(alloc)?;
    has_text(alloc, &components, 1, "{\"units\":[[[0,4],[5,9]]],\"fusions\":[]}\n")?;
    has_text(
        alloc,
        &components,
        2,
        "{\"units\":[[[0,4],[5,6],[7,8]],[[8,9]]],\"fusions\":[{\"of\":[0,1],\"interface\":[[6,7]]}]}\n",
    )
}

/// The plan by layers has this text, which is read as the same plan.
fn has_text(alloc: Global, graph: &Graph, units: u32, expected: &str) -> Result<(), Stopped> {
    let plan = Plan::by_layers(alloc, graph, units)?;
    let text = plan_text(alloc, graph, &plan)?;
    Stopped::unless(text.as_str() == expected, "a text")?;
    let read = read_plan(alloc, text.as_bytes(), graph)?;
    for v in 0..graph.vertices() {
        Stopped::unless(read.owner(v) == plan.owner(v), "an owner of the plan that is read")?;
    }
    Ok(())
}

/// The graph has so many layers, which are too few for so many units.
fn has_too_few(alloc: Global, graph: &Graph, units: u32, layers: u64) -> Result<(), Stopped> {
    match Plan::by_layers(alloc, graph, units) {
        Err(PlanFault::TooFewLayers(found)) => Stopped::unless(found == layers, "how many layers there are"),
        _ => Err(Stopped::Differs("the fault")),
    }
}
