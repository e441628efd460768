//! What the definitions give for the vertices, edges and nodes of a plain state, and which moves they allow.

use crate::plain::{PlainDual, PlainNode};
use fb_graph::Graph;
use fb_regions::NodeId;
use std::alloc::{AllocError, Global};

/// What the definitions give for a state, all of it computed from its nodes alone.
#[derive(Drop)]
pub struct Readings {
    heights: Vec<u64>,
    covers: Vec<Option<NodeId>>,
    loads: Vec<u64>,
    /// The vertices of the nodes that join no others.
    pub defects: Vec<u32>,
    /// For each node, whether it is outer: no node joins it.
    pub are_outer: Vec<bool>,
    /// For each node, how many blossoms are nested in it, itself included.
    pub depths: Vec<u64>,
}

impl Readings {
    pub fn of(alloc: Global, plain: &PlainDual<'_>) -> Result<Readings, AllocError> {
        let are_outer = are_outer(alloc, &plain.nodes)?;
        Ok(Readings {
            heights: heights(alloc, plain)?,
            covers: covers(alloc, plain, &are_outer)?,
            loads: loads(alloc, plain)?,
            defects: defects(alloc, &plain.nodes)?,
            depths: depths(alloc, &plain.nodes)?,
            are_outer,
        })
    }

    /// The vertex's potential: the sum of the values of all layers that hold it.
    pub fn height_of(&self, v: u32) -> u64 {
        self.heights.get(v as usize).copied().unwrap_or(0)
    }

    /// The outer node that holds the vertex.
    pub fn cover_of(&self, v: u32) -> Option<NodeId> {
        *self.covers.get(v as usize)?
    }

    /// The sum of the values of all layers that hold exactly one end of the edge.
    pub fn load_of(&self, edge: u32) -> u64 {
        self.loads[edge as usize]
    }

    /// What the potentials of the edge's ends leave of its weight; 0 if they are more.
    pub fn residue_of(&self, graph: &Graph, edge: u32) -> u64 {
        let (first, second) = graph.ends(edge);
        let heights = self.height_of(first) + self.height_of(second);
        graph.absolute_weight(edge).saturating_sub(heights)
    }

    /// The outer nodes that hold the edge's ends.
    pub fn covers_of(&self, graph: &Graph, edge: u32) -> (Option<NodeId>, Option<NodeId>) {
        let (first, second) = graph.ends(edge);
        (self.cover_of(first), self.cover_of(second))
    }

    /// Whether the potentials of all defects that the outer node holds have this parity.
    pub fn has_parity(&self, name: NodeId, parity: u64) -> bool {
        self.defects.iter().all(|d| self.cover_of(*d) != Some(name)
            || self.height_of(*d) % 2 == parity)
    }

    /// The end of the edge that a node holds, the first one if both are held, and the other end.
    pub fn inner_and_outer_end(&self, graph: &Graph, edge: u32) -> (u32, u32) {
        let (first, second) = graph.ends(edge);
        if self.cover_of(first).is_some() {
            (first, second)
        } else {
            (second, first)
        }
    }

    /// Whether the vertex may become a defect.
    pub fn may_open(&self, graph: &Graph, v: u32) -> bool {
        !graph.is_virtual(v) && self.cover_of(v).is_none()
    }

    /// Whether the edge is tight and leads from a covered vertex to an uncovered real one.
    pub fn may_absorb(&self, graph: &Graph, edge: u32) -> bool {
        let (inner, outer) = self.inner_and_outer_end(graph, edge);
        self.load_of(edge) == graph.absolute_weight(edge)
            && self.cover_of(inner).is_some()
            && self.may_open(graph, outer)
    }

    /// The greatest length by which an outer node may grow: what each edge that leaves its set can bear, and 0 if none
    /// leaves it.
    pub fn room_of(
        &self,
        alloc: Global,
        graph: &Graph,
        node: &PlainNode,
    ) -> Result<u64, AllocError> {
        let is_in = flags(alloc, graph, &node.top().vertices)?;
        let mut room = None;
        for edge in 0..graph.edge_count() {
            if is_between(&is_in, graph.ends(edge)) {
                let left = graph.absolute_weight(edge) - self.load_of(edge);
                room = Some(room.map_or(left, |least: u64| least.min(left)));
            }
        }
        Ok(room.unwrap_or(0))
    }
}

/// A flag for each vertex, set for those of the list.
pub fn flags(alloc: Global, graph: &Graph, vertices: &[u32]) -> Result<Vec<bool>, AllocError> {
    let mut flags = vec![in alloc; false; graph.vertices() as usize]?;
    for v in vertices {
        flags[*v as usize] = true;
    }
    Ok(flags)
}

/// Whether exactly one of the ends has a flag.
pub fn is_between(flags: &[bool], ends: (u32, u32)) -> bool {
    flags[ends.0 as usize] != flags[ends.1 as usize]
}

fn heights(alloc: Global, plain: &PlainDual<'_>) -> Result<Vec<u64>, AllocError> {
    let mut heights = vec![in alloc; 0; plain.graph.vertices() as usize]?;
    for node in &plain.nodes {
        for layer in &node.layers {
            for v in &layer.vertices {
                heights[*v as usize] += layer.value;
            }
        }
    }
    Ok(heights)
}

fn loads(alloc: Global, plain: &PlainDual<'_>) -> Result<Vec<u64>, AllocError> {
    let graph = plain.graph;
    let mut loads = vec![in alloc; 0; graph.edge_count() as usize]?;
    for node in &plain.nodes {
        for layer in &node.layers {
            if layer.value > 0 {
                let is_in = flags(alloc, graph, &layer.vertices)?;
                for edge in 0..graph.edge_count() {
                    if is_between(&is_in, graph.ends(edge)) {
                        loads[edge as usize] += layer.value;
                    }
                }
            }
        }
    }
    Ok(loads)
}

fn covers(
    alloc: Global,
    plain: &PlainDual<'_>,
    are_outer: &[bool],
) -> Result<Vec<Option<NodeId>>, AllocError> {
    let mut covers = vec![in alloc; None; plain.graph.vertices() as usize]?;
    for (node, is_outer) in plain.nodes.iter().zip(are_outer.iter()) {
        if *is_outer {
            for v in &node.top().vertices {
                if covers[*v as usize].is_none() {
                    covers[*v as usize] = Some(node.name);
                }
            }
        }
    }
    Ok(covers)
}

/// The vertex of each node that joins no others.
fn defects(alloc: Global, nodes: &[PlainNode]) -> Result<Vec<u32>, AllocError> {
    let mut defects = Vec::new(alloc);
    for node in nodes {
        if node.children.is_empty() {
            defects.push(node.layers[0].vertices[0])?;
        }
    }
    Ok(defects)
}

/// One more than the greatest name.
pub fn names_end(nodes: &[PlainNode]) -> usize {
    nodes.iter().map(|n| n.name as usize + 1).max().unwrap_or(0)
}

fn are_outer(alloc: Global, nodes: &[PlainNode]) -> Result<Vec<bool>, AllocError> {
    let mut are_joined = vec![in alloc; false; names_end(nodes)]?;
    for node in nodes {
        for child in &node.children {
            are_joined[*child as usize] = true;
        }
    }
    nodes
        .iter()
        .map(|n| !are_joined[n.name as usize])
        .collect(alloc)
}

/// The nodes that a node joins come before it.
fn depths(alloc: Global, nodes: &[PlainNode]) -> Result<Vec<u64>, AllocError> {
    let mut by_name = vec![in alloc; 0; names_end(nodes)]?;
    let mut depths = Vec::new(alloc);
    for node in nodes {
        let mut depth = 0;
        for child in &node.children {
            depth = depth.max(by_name[*child as usize] + 1);
        }
        by_name[node.name as usize] = depth;
        depths.push(depth)?;
    }
    Ok(depths)
}
